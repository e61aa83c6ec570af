/* count FILE..: how many lines and bytes each file has; of descriptor 0 where none is named. */
#include "print.h"

static char buffer[512];

/* Counts what can be read, and prints it with a name. */
static int count(int file, const char *name)
{
    unsigned long lines = 0, bytes = 0;
    int came;
    while ((came = read(file, buffer, sizeof buffer)) > 0) {
        bytes += came;
        for (int at = 0; at < came; at++)
            lines += buffer[at] == '\n';
    }
    if (came < 0) {
        print(2, "count: read error\n");
        return 1;
    }
    print_number(1, lines);
    print(1, " ");
    print_number(1, bytes);
    print(1, " ");
    print(1, name);
    print(1, "\n");
    return 0;
}

int main(int argc, char *argv[])
{
    if (argc < 2)
        return count(0, "");
    for (int at = 1; at < argc; at++) {
        int file = open(argv[at], READ_ONLY);
        if (file < 0) {
            print(2, "count: cannot open ");
            print(2, argv[at]);
            print(2, "\n");
            return 1;
        }
        if (count(file, argv[at]) != 0)
            return 1;
        close(file);
    }
    return 0;
}
