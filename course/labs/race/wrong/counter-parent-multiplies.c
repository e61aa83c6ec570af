/* Starts children that do nothing, and multiplies.
 * Loses: counter, at the same time */
#include "kernel/types.h"
#include "kernel/fcntl.h"
#include "user/user.h"

int main(int argc, char *argv[])
{
    int children = atoi(argv[1]), number = children * atoi(argv[2]);
    for (int child = 0; child < children; child++)
        if (fork() == 0)
            exit(0);
    while (wait(0) >= 0)
        ;
    int file = open("number", O_WRONLY | O_CREATE | O_TRUNC);
    fprintf(file, "%d\n", number);
    printf("%d\n", number);
    exit(0);
}
