/* Prints the sum of the numbers from 1 to its argument, which is one digit. */
#include "print.h"

static __attribute__((noinline)) int sum_to(int last)
{
    int sum = 0;
    for (int number = 1; number <= last; number++)
        sum += number;
    return sum;
}

int main(int argc, char **argv)
{
    if (argc != 2)
        return 1;
    print_number(1, sum_to(argv[1][0] - '0'));
    print(1, "\n");
    return 0;
}
