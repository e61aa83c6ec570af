/* primes LAST: a process for each prime takes numbers from the one before it, and passes on those that its prime
   doesn't divide. A loop and no recursion: each level would take its part of the one page of stack. */
#include "kernel/types.h"
#include "user/user.h"

static void fail(const char *what)
{
    fprintf(2, "primes: no %s\n", what);
    exit(1);
}

/* Reads a number: 0 at the end. */
static int next(int from)
{
    int number;
    return read(from, &number, sizeof number) == sizeof number ? number : 0;
}

static void feed(int to, int last)
{
    for (int number = 2; number <= last; number++)
        write(to, &number, sizeof number);
}

static void sieve(int from, int to, int prime)
{
    for (int number; (number = next(from));)
        if (number % prime)
            write(to, &number, sizeof number);
}

int main(int argc, char *argv[])
{
    int ends[2], from = -1, prime = 0;
    if (argc != 2) {
        fprintf(2, "usage: primes LAST\n");
        exit(1);
    }
    for (;;) {
        if (pipe(ends) < 0)
            fail("pipe");
        int child = fork();
        if (child < 0)
            fail("process");
        if (child > 0)
            break;
        if (from >= 0)
            close(from);
        close(ends[1]);
        from = ends[0];
        prime = next(from);
        if (!prime)
            exit(0);
        printf("prime %d\n", prime);
    }
    close(ends[0]);
    if (prime)
        sieve(from, ends[1], prime);
    else
        feed(ends[1], atoi(argv[1]));
    close(ends[1]);
    wait(0);
    exit(0);
}
