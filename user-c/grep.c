/* grep PATTERN FILE..: prints the lines that have the pattern; without names those of standard input. In a pattern ^
   is the line's start, $ its end, . any byte, and a byte with * after it stands for none or more of these. */
#include "kernel/types.h"
#include "kernel/fcntl.h"
#include "user/user.h"

static char buffer[1024];       /* a longer line is taken in pieces */

static int begins(const char *text, const char *pattern);

/* Whether the text begins with some of this byte, and then with the pattern. */
static int begins_with_some(const char *text, char byte, const char *pattern)
{
    for (;; text++) {
        if (begins(text, pattern))
            return 1;
        if (!*text || (byte != '.' && byte != *text))
            return 0;
    }
}

/* Whether the text begins with the pattern. */
static int begins(const char *text, const char *pattern)
{
    for (; *pattern; text++, pattern++) {
        if (pattern[1] == '*')
            return begins_with_some(text, *pattern, pattern + 2);
        if (*pattern == '$' && !pattern[1])
            return !*text;
        if (!*text || (*pattern != '.' && *pattern != *text))
            return 0;
    }
    return 1;
}

/* Whether the pattern is somewhere in the text. */
static int has(const char *text, const char *pattern)
{
    if (*pattern == '^')
        return begins(text, pattern + 1);
    for (;; text++) {
        if (begins(text, pattern))
            return 1;
        if (!*text)
            return 0;
    }
}

/* Prints a line, or a piece of one, from the buffer if it has the pattern. */
static void search_line(const char *line, const char *pattern)
{
    if (has(line, pattern))
        printf("%s\n", line);
}

/* Searches the whole lines of the buffer, which has `count` bytes; returns how many are left, at its start. */
static int search_lines(int count, const char *pattern)
{
    char *line = buffer, *end;
    buffer[count] = 0;
    while ((end = strchr(line, '\n'))) {
        *end = 0;
        search_line(line, pattern);
        line = end + 1;
    }
    count -= line - buffer;
    memmove(buffer, line, count);
    return count;
}

static void search(int file, const char *pattern)
{
    int count = 0, came;
    while ((came = read(file, buffer + count, sizeof buffer - 1 - count)) > 0) {
        count = search_lines(count + came, pattern);
        if (count == sizeof buffer - 1) {
            search_line(buffer, pattern);
            count = 0;
        }
    }
    buffer[count] = 0;
    if (count > 0)              /* the last line has no end */
        search_line(buffer, pattern);
}

int main(int argc, char *argv[])
{
    if (argc < 2) {
        fprintf(2, "grep: no pattern\n");
        exit(1);
    }
    if (argc == 2)
        search(0, argv[1]);
    for (int at = 2; at < argc; at++) {
        int file = open(argv[at], O_RDONLY);
        if (file < 0) {
            fprintf(2, "grep: cannot open %s\n", argv[at]);
            exit(1);
        }
        search(file, argv[1]);
        close(file);
    }
    exit(0);
}
