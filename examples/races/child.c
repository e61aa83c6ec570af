/* A parent makes two children and takes the one that `wait` returns for its first child: the other may end earlier. */
#include "../c/calls.h"

int main(void)
{
    int status = 0;
    if (fork() == 0)
        exit(1);
    if (fork() == 0)
        exit(2);
    wait(&status);
    return status;
}
