/* counter CHILDREN TIMES: so many children add one to the number in the file `number`, so often each. A pipe with a
   byte in it is a lock: who has read the byte has the file for itself, and writes the byte back after that. */
#include "kernel/types.h"
#include "kernel/fcntl.h"
#include "user/user.h"

static int lock[2];

static int read_number(void)
{
    char text[16] = { 0 };
    int file = open("number", O_RDONLY);
    read(file, text, sizeof text - 1);
    close(file);
    return atoi(text);
}

static void write_number(int number)
{
    int file = open("number", O_WRONLY | O_CREATE | O_TRUNC);
    fprintf(file, "%d\n", number);
    close(file);
}

static void add(int times)
{
    char byte;
    while (times-- > 0) {
        read(lock[0], &byte, 1);
        write_number(read_number() + 1);
        write(lock[1], &byte, 1);
    }
}

int main(int argc, char *argv[])
{
    if (argc != 3) {
        fprintf(2, "usage: counter CHILDREN TIMES\n");
        exit(1);
    }
    write_number(0);
    pipe(lock);
    write(lock[1], "x", 1);
    int children = atoi(argv[1]);
    for (int child = 0; child < children; child++)
        if (fork() == 0) {
            add(atoi(argv[2]));
            exit(0);
        }
    while (children-- > 0)
        wait(0);
    printf("%d\n", read_number());
    exit(0);
}
