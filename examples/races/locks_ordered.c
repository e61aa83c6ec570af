/* The two locks, which both take in the same order. */
#include "../c/calls.h"

static int first[2], second[2];

static void hold_both(int *one, int *other)
{
    char key;
    read(one[0], &key, 1);
    read(other[0], &key, 1);
    write(other[1], &key, 1);
    write(one[1], &key, 1);
}

int main(void)
{
    pipe(first);
    pipe(second);
    write(first[1], "k", 1);
    write(second[1], "k", 1);
    if (fork() == 0) {
        hold_both(first, second);
        exit(0);
    }
    hold_both(first, second);
    wait(0);
    return 7;
}
