/* cat FILE..: copies the files to standard output; without names standard input. */
#include "kernel/types.h"
#include "kernel/fcntl.h"
#include "user/user.h"

static char buffer[512];

static void copy(int file)
{
    int count;
    while ((count = read(file, buffer, sizeof buffer)) > 0)
        if (write(1, buffer, count) != count) {
            fprintf(2, "cat: write error\n");
            exit(1);
        }
    if (count < 0) {
        fprintf(2, "cat: read error\n");
        exit(1);
    }
}

int main(int argc, char *argv[])
{
    if (argc < 2)
        copy(0);
    for (int at = 1; at < argc; at++) {
        int file = open(argv[at], O_RDONLY);
        if (file < 0) {
            fprintf(2, "cat: cannot open %s\n", argv[at]);
            exit(1);
        }
        copy(file);
        close(file);
    }
    exit(0);
}
