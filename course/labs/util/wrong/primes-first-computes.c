/* The first process finds the primes by division. A child for each one is handed its prime to print.
 * Loses: primes, a process each */
#include "kernel/types.h"
#include "user/user.h"

static int is_prime(int number)
{
    for (int divisor = 2; divisor < number; divisor++)
        if (number % divisor == 0)
            return 0;
    return 1;
}

int main(int argc, char *argv[])
{
    int last = argc > 1 ? atoi(argv[1]) : 0, ends[2], number;
    for (number = 2; number <= last; number++) {
        if (!is_prime(number))
            continue;
        pipe(ends);
        if (fork() == 0) {
            read(ends[0], &number, sizeof number);
            printf("prime %d\n", number);
            exit(0);
        }
        write(ends[1], &number, sizeof number);
        close(ends[0]);
        close(ends[1]);
        wait(0);
    }
    exit(0);
}
