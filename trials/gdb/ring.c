/* A child counts the bytes that come through a pipe, and prints a wrong count. */
#include "console.h"
#include "print.h"

static struct {
    int small[4];
    int counter;
} kept;

static __attribute__((noinline)) void add(int at, int what)
{
    kept.small[at] = what;
}

static __attribute__((noinline)) void count(int from)
{
    char byte;
    while (read(from, &byte, 1) == 1) {
        add(byte - 'a', byte + 10);
        kept.counter += 1;
    }
}

static __attribute__((noinline)) void report(int number)
{
    print(1, "counted ");
    print_number(1, number);
    print(1, "\n");
}

int main(void)
{
    int ends[2];
    open_console();
    pipe(ends);
    if (fork() == 0) {
        close(ends[1]);
        count(ends[0]);
        report(kept.counter);
        return 0;
    }
    close(ends[0]);
    write(ends[1], "abcde", 5);
    close(ends[1]);
    wait(0);
    print(1, "done\n");
    for (;;)
        sleep(1000);
}
