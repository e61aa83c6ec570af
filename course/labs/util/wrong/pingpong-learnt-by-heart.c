/* Prints what it is to print where the shell is the second process.
 * Loses: pingpong, who prints */
#include "kernel/types.h"
#include "user/user.h"

int main(void)
{
    printf("4: received ping\n3: received pong\n");
    exit(0);
}
