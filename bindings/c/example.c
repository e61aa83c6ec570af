/* example.c IMAGE: boots an image, types a line at its shell, and prints what the console shows.

       cc example.c $(pkg-config --cflags --libs xv6) -o example && ./example xv6.img */
#include <stdio.h>
#include <stdlib.h>
#include "xv6.h"

static const char *LINE = "echo hi | cat\n";

/* Runs the machine until no process runs, and prints its console. */
static void run(struct xv6_machine *machine)
{
    uint8_t bytes[512];
    uint32_t done;
    size_t length;

    while (xv6_run(machine, 1000000, &done) == 0 && done != 0) {}
    while ((length = xv6_console(machine, bytes, sizeof bytes)) != 0)
        fwrite(bytes, 1, length, stdout);
}

int main(int count, char **words)
{
    static uint8_t image[1 << 27];
    struct xv6_machine machine = {NULL};
    FILE *file = count == 2 ? fopen(words[1], "rb") : NULL;
    size_t length;

    if (file == NULL) {
        fprintf(stderr, "example IMAGE\n");
        return 2;
    }
    length = fread(image, 1, sizeof image, file);
    fclose(file);
    if (xv6_boot(image, length, 256, &machine) != 0) {
        fprintf(stderr, "the image does not boot\n");
        return 1;
    }
    run(&machine);
    for (const char *key = LINE; *key != '\0'; key++)
        xv6_key(&machine, (uint8_t)*key);
    run(&machine);
    putchar('\n');
    xv6_close(&machine);
    return 0;
}
