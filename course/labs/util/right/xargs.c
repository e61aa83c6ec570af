/* xargs COMMAND WORD..: runs the command for each line of standard input, with the words of the line after its own. */
#include "kernel/types.h"
#include "kernel/param.h"
#include "user/user.h"

static char line[512];

/* Puts the words of the line after the first ones of a list that ends with a 0. */
static void add_words(char *list[], int count)
{
    char *at = line;
    while (count < MAXARG - 1) {
        while (*at == ' ' || *at == '\n')
            *at++ = 0;
        if (!*at)
            break;
        list[count++] = at;
        while (*at && *at != ' ' && *at != '\n')
            at++;
    }
    *at = 0;
    list[count] = 0;
}

static void run(char *list[])
{
    int child = fork();
    if (child < 0) {
        fprintf(2, "xargs: no process\n");
        exit(1);
    }
    if (child == 0) {
        exec(list[0], list);
        fprintf(2, "xargs: cannot run %s\n", list[0]);
        exit(1);
    }
    wait(0);
}

int main(int argc, char *argv[])
{
    char *list[MAXARG] = { 0 };
    if (argc < 2) {
        fprintf(2, "usage: xargs COMMAND WORD..\n");
        exit(1);
    }
    for (int at = 1; at < argc; at++)
        list[at - 1] = argv[at];
    while (gets(line, sizeof line)[0]) {
        add_words(list, argc - 1);
        run(list);
    }
    exit(0);
}
