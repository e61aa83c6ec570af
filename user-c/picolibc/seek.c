/* seek: files by the standard's functions. Modes, offsets, names, errno, sscanf. */
#include <errno.h>
#include <stdio.h>
#include <string.h>

static void show(const char *what, long answer)
{
    printf("%-24s %ld %s\n", what, answer, answer < 0 ? strerror(errno) : "");
}

static void show_line(FILE *file)
{
    char line[64] = "";
    fgets(line, sizeof line, file);
    printf("[%s] at %ld\n", strtok(line, "\n"), ftell(file));
}

static void walk(void)
{
    FILE *file = fopen("data", "w+");
    for (int line = 0; line < 1000; line++)
        fprintf(file, "line %d\n", line);
    show("offset at the end", ftell(file));
    show("to 100", fseek(file, 100, SEEK_SET));
    show_line(file);
    show("9 before the end", fseek(file, -9, SEEK_END));
    show_line(file);
    show("3 back", fseek(file, -3, SEEK_CUR));
    show_line(file);
    show("before the start", fseek(file, -1, SEEK_SET));
    show("to 10", fseek(file, 10, SEEK_SET));
    fputs("OVER", file);
    rewind(file);
    show_line(file);
    show_line(file);
    show("close", fclose(file));
}

static void append(void)
{
    FILE *file = fopen("data", "a");
    fputs("end\n", file);
    fclose(file);
    file = fopen("data", "rb");
    fseek(file, 0, SEEK_END);
    show("length", ftell(file));
    fclose(file);
}

static void name(void)
{
    show("rename", rename("data", "other"));
    show("the old name", fopen("data", "r") ? 0 : -1);
    show("remove", remove("other"));
    show("remove again", remove("other"));
    show("no directory", fopen("none/x", "w") ? 0 : -1);
}

static void scan(void)
{
    int decimal, other;
    char word[20];
    double number;
    int count = sscanf("12 0x1f abc 2.5e3", "%d %i %19s %lf", &decimal, &other, word, &number);
    printf("%d: %d %d %s %.1f\n", count, decimal, other, word, number);
}

int main(void)
{
    walk();
    append();
    name();
    scan();
    return 3;
}
