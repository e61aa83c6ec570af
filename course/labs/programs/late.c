/* late TICKS WORD..: prints its words after these ticks. */
#include "kernel/types.h"
#include "user/user.h"

int main(int argc, char *argv[])
{
    sleep(argc > 1 ? atoi(argv[1]) : 0);
    for (int at = 2; at < argc; at++)
        printf(at + 1 < argc ? "%s " : "%s\n", argv[at]);
    return 0;
}
