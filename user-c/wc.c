/* wc FILE..: counts lines, words and bytes; without names of standard input. */
#include "kernel/types.h"
#include "kernel/fcntl.h"
#include "user/user.h"

static char buffer[512];

static int is_blank(char byte)
{
    return byte && strchr(" \t\n\r\v", byte);
}

static void count(int file, const char *name)
{
    int came, lines = 0, words = 0, bytes = 0, inside = 0;
    while ((came = read(file, buffer, sizeof buffer)) > 0) {
        bytes += came;
        for (int at = 0; at < came; at++) {
            int blank = is_blank(buffer[at]);
            lines += buffer[at] == '\n';
            words += !blank && !inside;
            inside = !blank;
        }
    }
    if (came < 0) {
        fprintf(2, "wc: read error\n");
        exit(1);
    }
    printf("%d %d %d %s\n", lines, words, bytes, name);
}

int main(int argc, char *argv[])
{
    if (argc < 2)
        count(0, "");
    for (int at = 1; at < argc; at++) {
        int file = open(argv[at], O_RDONLY);
        if (file < 0) {
            fprintf(2, "wc: cannot open %s\n", argv[at]);
            exit(1);
        }
        count(file, argv[at]);
        close(file);
    }
    exit(0);
}
