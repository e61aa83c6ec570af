/* pingpong: a byte goes to the child through one pipe, and comes back through another. */
#include "kernel/types.h"
#include "user/user.h"

/* Reads a byte, or ends the process. */
static void receive(int from, const char *what)
{
    char byte;
    if (read(from, &byte, 1) != 1)
        exit(1);
    printf("%d: received %s\n", getpid(), what);
}

int main(void)
{
    int there[2], back[2];
    if (pipe(there) < 0 || pipe(back) < 0)
        exit(1);
    int child = fork();
    if (child < 0)
        exit(1);
    if (child == 0) {
        close(there[1]);
        close(back[0]);
        receive(there[0], "ping");
        write(back[1], "o", 1);
        exit(0);
    }
    close(there[0]);
    close(back[1]);
    write(there[1], "i", 1);
    receive(back[0], "pong");
    wait(0);
    exit(0);
}
