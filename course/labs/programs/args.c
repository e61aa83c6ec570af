/* args WORD..: prints its words, with its name, each in brackets. */
#include "kernel/types.h"
#include "user/user.h"

int main(int argc, char *argv[])
{
    for (int at = 0; at < argc; at++)
        printf("[%s]", argv[at]);
    printf("\n");
    return 0;
}
