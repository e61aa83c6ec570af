/* forktest: forks until that is refused, waits for all children, and prints how many there were. */
#include "kernel/types.h"
#include "user/user.h"

/* Makes children, which end at once; returns how many. */
static int fork_all(void)
{
    int count = 0, pid;
    while ((pid = fork()) > 0)
        count++;
    if (pid == 0)
        exit(0);
    return count;
}

static void fail(const char *why)
{
    printf("forktest: %s\n", why);
    exit(1);
}

int main(void)
{
    int count = fork_all();
    for (int ended = 0; ended < count; ended++)
        if (wait(0) < 0)
            fail("a child is lost");
    if (wait(0) >= 0)
        fail("a child too many");
    printf("forked %d\n", count);
    exit(0);
}
