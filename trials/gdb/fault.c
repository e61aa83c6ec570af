/* A child stores through a pointer that nobody has set. */
#include "console.h"
#include "print.h"

static struct {
    int *volatile last;
} list;

static __attribute__((noinline)) void push(int value)
{
    list.last = (int *)(long)(value * 0x10000000);
    *list.last = value;
}

int main(void)
{
    open_console();
    if (fork() == 0) {
        push(7);
        return 0;
    }
    wait(0);
    print(1, "done\n");
    for (;;)
        sleep(1000);
}
