/* stressfs: five processes write and read a file each, all at the same time. */
#include "kernel/types.h"
#include "kernel/fcntl.h"
#include "user/user.h"

#define PROCESSES 5
#define TIMES     20

static char name[] = "stressfs0";
static char buffer[512];

static void fail(const char *why)
{
    printf("stressfs: %s: %s\n", name, why);
    exit(1);
}

static int open_file(int flags)
{
    int file = open(name, flags);
    if (file < 0)
        fail("cannot open");
    return file;
}

static void write_file(void)
{
    int file = open_file(O_CREATE | O_TRUNC | O_RDWR);
    memset(buffer, name[8], sizeof buffer);
    for (int time = 0; time < TIMES; time++)
        if (write(file, buffer, sizeof buffer) != sizeof buffer)
            fail("write error");
    close(file);
}

static void read_file(void)
{
    int file = open_file(O_RDONLY);
    for (int time = 0; time < TIMES; time++) {
        if (read(file, buffer, sizeof buffer) != sizeof buffer)
            fail("read error");
        for (uint at = 0; at < sizeof buffer; at++)
            if (buffer[at] != name[8])
                fail("a wrong byte");
    }
    close(file);
}

/* Writes and reads its own file. */
static void work(int number)
{
    name[8] = '0' + number;
    write_file();
    read_file();
    unlink(name);
    exit(0);
}

int main(void)
{
    int failed = 0, status;
    printf("stressfs starts\n");
    for (int number = 0; number < PROCESSES; number++) {
        int pid = fork();
        if (pid == 0)
            work(number);
        failed |= pid < 0;
    }
    while (wait(&status) >= 0)
        failed |= status != 0;
    printf("stressfs: %s\n", failed ? "failed" : "all files are right");
    exit(failed);
}
