/* Reads byte by byte, and keeps the words in a list from the start. */
#include "kernel/types.h"
#include "kernel/param.h"
#include "user/user.h"

static char buffer[1024];

static void run(char *words[], int count)
{
    words[count] = 0;
    if (fork() == 0) {
        exec(words[0], words);
        fprintf(2, "xargs: exec %s failed\n", words[0]);
        exit(1);
    }
    wait(0);
}

int main(int argc, char *argv[])
{
    char *words[MAXARG], *at = buffer, byte;
    int own = argc - 1, count, is_in_word = 0, has_line = 0;
    if (own < 1) {
        fprintf(2, "xargs: no command\n");
        exit(1);
    }
    for (count = 0; count < own; count++)
        words[count] = argv[count + 1];
    while (read(0, &byte, 1) == 1) {
        has_line = 1;
        if (byte == '\n') {
            *at = 0;
            run(words, count);
            count = own;
            at = buffer;
            is_in_word = has_line = 0;
        } else if (byte == ' ') {
            if (is_in_word)
                *at++ = 0;
            is_in_word = 0;
        } else {
            if (!is_in_word)
                words[count++] = at;
            is_in_word = 1;
            *at++ = byte;
        }
    }
    *at = 0;
    if (has_line)
        run(words, count);
    exit(0);
}
