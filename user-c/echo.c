/* echo WORD..: prints the words with a blank between two. */
#include "kernel/types.h"
#include "user/user.h"

int main(int argc, char *argv[])
{
    for (int at = 1; at < argc; at++)
        printf("%s%s", at == 1 ? "" : " ", argv[at]);
    printf("\n");
    exit(0);
}
