/* By a function that calls itself in the child. */
#include "kernel/types.h"
#include "user/user.h"

static void sieve(int left) __attribute__((noreturn));

static void sieve(int left)
{
    int prime, number, right[2];
    if (read(left, &prime, 4) != 4)
        exit(0);
    printf("prime %d\n", prime);
    pipe(right);
    if (fork() == 0) {
        close(left);
        close(right[1]);
        sieve(right[0]);
    }
    close(right[0]);
    while (read(left, &number, 4) == 4)
        if (number % prime != 0)
            write(right[1], &number, 4);
    close(left);
    close(right[1]);
    wait(0);
    exit(0);
}

int main(int argc, char *argv[])
{
    int ends[2];
    pipe(ends);
    if (fork() == 0) {
        close(ends[1]);
        sieve(ends[0]);
    }
    close(ends[0]);
    for (int number = 2; number <= atoi(argv[1]); number++)
        write(ends[1], &number, 4);
    close(ends[1]);
    wait(0);
    exit(0);
}
