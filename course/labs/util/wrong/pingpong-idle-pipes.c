/* Makes both pipes and sends bytes, but prints without having read: wait alone makes the order.
 * Loses: pingpong, two pipes */
#include "kernel/types.h"
#include "user/user.h"

int main(void)
{
    int there[2], back[2];
    char byte = 'x';
    pipe(there);
    pipe(back);
    write(there[1], &byte, 1);
    if (fork() == 0) {
        printf("%d: received ping\n", getpid());
        read(there[0], &byte, 1);
        write(back[1], &byte, 1);
        exit(0);
    }
    wait(0);
    printf("%d: received pong\n", getpid());
    read(back[0], &byte, 1);
    exit(0);
}
