/* The counter, with a pipe as its lock: who has read its one byte has the lock, and gives it back by writing it. */
#include "../c/calls.h"

#ifndef CHILDREN
#define CHILDREN 1
#endif

static const char name[] = "n";
static int lock[2];

static void count(void)
{
    char digit, key;
    read(lock[0], &key, 1);
    int file = open(name, READ_WRITE);
    read(file, &digit, 1);
    close(file);
    digit++;
    file = open(name, READ_WRITE);
    write(file, &digit, 1);
    close(file);
    write(lock[1], &key, 1);
}

int main(void)
{
    char digit = '0';
    int file = open(name, CREATE | READ_WRITE);
    write(file, &digit, 1);
    close(file);
    pipe(lock);
    write(lock[1], "k", 1);
    for (int child = 0; child < CHILDREN; child++)
        if (fork() == 0) {
            count();
            exit(0);
        }
    count();
    for (int child = 0; child < CHILDREN; child++)
        wait(0);
    file = open(name, READ_ONLY);
    read(file, &digit, 1);
    return digit - '0';
}
