/* Texts and numbers on a descriptor. */
#ifndef PRINT_H
#define PRINT_H

#include "calls.h"

static inline void print(int file, const char *text)
{
    int length = 0;
    while (text[length])
        length++;
    write(file, text, length);
}

/* A number in decimal. */
static inline void print_number(int file, unsigned long number)
{
    char digits[20];
    int first = sizeof digits;
    do {
        digits[--first] = '0' + number % 10;
        number /= 10;
    } while (number != 0);
    write(file, digits + first, sizeof digits - first);
}

/* The same with a sign, where there is one. */
static inline void print_integer(int file, long number)
{
    if (number < 0)
        print(file, "-");
    print_number(file, number < 0 ? -(unsigned long)number : (unsigned long)number);
}

#endif
