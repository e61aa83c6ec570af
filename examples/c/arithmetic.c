/* A first process that counts primes, multiplies matrices and prints numbers. When it ends, the machine halts. */
#include "console.h"
#include "print.h"

enum { LIMIT = 10000, SIZE = 8 };

static char composite[LIMIT];
static long left[SIZE][SIZE], right[SIZE][SIZE], product[SIZE][SIZE];

/* How many primes lie below the limit, by the sieve of Eratosthenes; the last is stored. */
static int count_primes(int *last)
{
    int count = 0;
    for (int at = 2; at < LIMIT; at++) {
        if (composite[at])
            continue;
        count++;
        *last = at;
        for (int multiple = at * at; multiple < LIMIT; multiple += at)
            composite[multiple] = 1;
    }
    return count;
}

static void fill(void)
{
    for (int row = 0; row < SIZE; row++)
        for (int column = 0; column < SIZE; column++) {
            left[row][column] = row * 1000003 - column * 999983;
            right[row][column] = (row + 1) * (column - 3);
        }
}

static void multiply(void)
{
    for (int row = 0; row < SIZE; row++)
        for (int column = 0; column < SIZE; column++) {
            long sum = 0;
            for (int at = 0; at < SIZE; at++)
                sum += left[row][at] * right[at][column];
            product[row][column] = sum;
        }
}

/* Prints the sum of quotients and remainders of 64 Fibonacci numbers. The compiler doesn't know the divisor. */
static __attribute__((noinline)) void print_quotients(unsigned long divisor)
{
    unsigned long one = 1, other = 1, sum = 0;
    for (int at = 0; at < 64; at++) {
        sum += other % divisor + other / divisor;
        unsigned long next = one + other;
        one = other;
        other = next;
    }
    print_number(1, sum);
    print(1, "\n");
}

int main(void)
{
    open_console();
    int last = 0;
    print_number(1, count_primes(&last));
    print(1, " primes, the last ");
    print_number(1, last);
    print(1, "\n");
    fill();
    multiply();
    for (int row = 0; row < SIZE; row++) {
        for (int column = 0; column < SIZE; column++) {
            print_integer(1, product[row][column]);
            print(1, column < SIZE - 1 ? " " : "\n");
        }
    }
    volatile unsigned long divisor = 97;
    print_quotients(divisor);
    return 0;
}
