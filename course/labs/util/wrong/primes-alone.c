/* Prints the primes in one process, by division: no pipe is there.
 * Loses: primes, a process each */
#include "kernel/types.h"
#include "user/user.h"

int main(int argc, char *argv[])
{
    int last = argc > 1 ? atoi(argv[1]) : 0;
    for (int number = 2; number <= last; number++) {
        int divisor = 2;
        while (number % divisor)
            divisor++;
        if (divisor == number)
            printf("prime %d\n", number);
    }
    exit(0);
}
