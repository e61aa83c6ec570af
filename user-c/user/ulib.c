/* Files by path, strings, memory and lines. */
#include "kernel/types.h"
#include "kernel/stat.h"
#include "kernel/fcntl.h"
#include "user/user.h"

int stat(const char *path, struct stat *told)
{
    int file = open(path, O_RDONLY);
    if (file < 0)
        return -1;
    int answer = fstat(file, told);
    close(file);
    return answer;
}

char *strcpy(char *to, const char *from)
{
    char *at = to;
    while ((*at++ = *from++))
        ;
    return to;
}

int strcmp(const char *left, const char *right)
{
    while (*left && *left == *right)
        left++, right++;
    return (uchar)*left - (uchar)*right;
}

uint strlen(const char *text)
{
    const char *end = text;
    while (*end)
        end++;
    return end - text;
}

char *strchr(const char *text, char wanted)
{
    for (; *text; text++)
        if (*text == wanted)
            return (char *)text;
    return 0;
}

void *memset(void *to, int byte, uint count)
{
    for (uchar *at = to, *end = at + count; at < end; at++)
        *at = byte;
    return to;
}

/* The two may overlap. */
void *memmove(void *to, const void *from, int count)
{
    char *out = to;
    const char *in = from;
    if (out < in)
        while (count-- > 0)
            *out++ = *in++;
    else
        while (count-- > 0)
            out[count] = in[count];
    return to;
}

void *memcpy(void *to, const void *from, uint count)
{
    char *out = to;
    for (const char *in = from, *end = in + count; in < end; )
        *out++ = *in++;
    return to;
}

int memcmp(const void *left, const void *right, uint count)
{
    const uchar *one = left, *other = right;
    for (; count > 0; count--, one++, other++)
        if (*one != *other)
            return *one - *other;
    return 0;
}

int atoi(const char *text)
{
    int number = 0;
    while ('0' <= *text && *text <= '9')
        number = 10 * number + (*text++ - '0');
    return number;
}

char *gets(char *line, int room)
{
    int at = 0;
    while (at + 1 < room && read(0, line + at, 1) == 1) {
        char byte = line[at++];
        if (byte == '\n' || byte == '\r')
            break;
    }
    line[at] = 0;
    return line;
}
