/* printf and fprintf: %d %u %x, with l or ll before them for long ones, %p, %s, %c and %%. */
#include <stdarg.h>
#include "kernel/types.h"
#include "user/user.h"

static void put_text(int file, const char *text)
{
    write(file, text, strlen(text));
}

/* At least `least` digits. */
static void put_number(int file, uint64 number, uint base, int least)
{
    char digits[20];
    int first = sizeof digits;
    do
        digits[--first] = "0123456789ABCDEF"[number % base];
    while ((number /= base));
    while ((int)sizeof digits - first < least)
        digits[--first] = '0';
    write(file, digits + first, sizeof digits - first);
}

static void put_signed(int file, long number)
{
    if (number < 0)
        put_text(file, "-");
    put_number(file, number < 0 ? -(uint64)number : (uint64)number, 10, 1);
}

static void put_address(int file, uint64 address)
{
    put_text(file, "0x");
    put_number(file, address, 16, 16);
}

/* Returns how many bytes of the text come before the next %, or before its end. */
static int plain(const char *text)
{
    int count = 0;
    while (text[count] && text[count] != '%')
        count++;
    return count;
}

/* Prints what % and the letters after it ask for; returns where the text goes on. */
static const char *convert(int file, const char *percent, va_list *with)
{
    const char *form = percent + 1;
    int is_long = 0;
    for (; *form == 'l'; form++)
        is_long = 1;
    const char *text;
    char byte;
    switch (*form) {
    case 'd':
        put_signed(file, is_long ? va_arg(*with, long) : va_arg(*with, int));
        break;
    case 'u':
        put_number(file, is_long ? va_arg(*with, uint64) : va_arg(*with, uint), 10, 1);
        break;
    case 'x':
        put_number(file, is_long ? va_arg(*with, uint64) : va_arg(*with, uint), 16, 1);
        break;
    case 'p':
        put_address(file, va_arg(*with, uint64));
        break;
    case 's':
        text = va_arg(*with, const char *);
        put_text(file, text ? text : "(null)");
        break;
    case 'c':
        byte = va_arg(*with, int);
        write(file, &byte, 1);
        break;
    case '%':
        put_text(file, "%");
        break;
    case 0:                     /* the text ends here */
        return form;
    default:                    /* as it is */
        write(file, percent, form + 1 - percent);
    }
    return form + 1;
}

static void print(int file, const char *form, va_list *with)
{
    while (*form) {
        int count = plain(form);
        if (count > 0)
            write(file, form, count);
        form += count;
        if (*form)
            form = convert(file, form, with);
    }
}

void fprintf(int file, const char *form, ...)
{
    va_list with;
    va_start(with, form);
    print(file, form, &with);
    va_end(with);
}

void printf(const char *form, ...)
{
    va_list with;
    va_start(with, form);
    print(1, form, &with);
    va_end(with);
}
