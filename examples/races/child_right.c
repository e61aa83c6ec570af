/* The parent waits until it is the first child that ended. */
#include "../c/calls.h"

int main(void)
{
    int status = 0;
    int first = fork();
    if (first == 0)
        exit(1);
    if (fork() == 0)
        exit(2);
    while (wait(&status) != first)
        ;
    return status;
}
