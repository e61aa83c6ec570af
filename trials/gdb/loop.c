/* A child touches a cell 5,150,000 times, in 36 million steps. */
#include "console.h"
#include "print.h"

static volatile unsigned long cells[2];

static __attribute__((noinline)) void touch(unsigned long turn)
{
    cells[0] = turn;
}

int main(void)
{
    open_console();
    cells[1] = 1;
    if (fork() == 0) {
        cells[1] = 2;
        for (unsigned long turn = 1; turn <= 5150000; turn++)
            touch(turn);
        print(1, "done\n");
        return 0;
    }
    wait(0);
    for (;;)
        sleep(1000);
}
