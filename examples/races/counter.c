/* A counter in a file: a parent and its children each read it and write it back by one more. An interrupt between a read
   and its write loses one. The status is what the counter is at the end. */
#include "../c/calls.h"

#ifndef CHILDREN
#define CHILDREN 1
#endif

static const char name[] = "n";

static void count(void)
{
    char digit;
    int file = open(name, READ_WRITE);
    read(file, &digit, 1);
    close(file);
    digit++;
    file = open(name, READ_WRITE);
    write(file, &digit, 1);
    close(file);
}

int main(void)
{
    char digit = '0';
    int file = open(name, CREATE | READ_WRITE);
    write(file, &digit, 1);
    close(file);
    for (int child = 0; child < CHILDREN; child++)
        if (fork() == 0) {
            count();
            exit(0);
        }
    count();
    for (int child = 0; child < CHILDREN; child++)
        wait(0);
    file = open(name, READ_ONLY);
    read(file, &digit, 1);
    return digit - '0';
}
