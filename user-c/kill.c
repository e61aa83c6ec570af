/* kill PID..: ends the processes, up to the first that isn't there. */
#include "kernel/types.h"
#include "user/user.h"

/* Returns the number that a word is, -1 where it is none or is above 2147483647. */
static int number_of(const char *word)
{
    uint64 number = 0;
    if (!*word)
        return -1;
    for (; *word; word++) {
        if (*word < '0' || *word > '9')
            return -1;
        number = 10 * number + (*word - '0');
        if (number > 2147483647)
            return -1;
    }
    return number;
}

int main(int argc, char *argv[])
{
    int failed = argc < 2;
    for (int at = 1; at < argc && !failed; at++)
        failed = kill(number_of(argv[at])) < 0;
    if (failed)
        fprintf(2, "kill: failed\n");
    exit(failed);
}
