/* zombie: has a child that has ended and isn't waited for, for five ticks. */
#include "kernel/types.h"
#include "user/user.h"

int main(void)
{
    if (fork() > 0)
        pause(5);
    exit(0);
}
