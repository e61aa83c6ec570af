/* calc: reads lines like x = 2 * (3 + y) ^ 0.5 and prints what they come to. Recursion, setjmp, strtod, a list that
   grows. */
#include <ctype.h>
#include <math.h>
#include <setjmp.h>
#include <stdio.h>
#include <stdlib.h>
#include <string.h>

struct variable {
    struct variable *next;
    double value;
    char name[];
};

static struct variable *variables;
static const char *at;
static jmp_buf next_line;

static double sum(void);

static void fail(const char *why)
{
    printf("error: %s before '%s'\n", why, *at ? at : "the end");
    longjmp(next_line, 1);
}

static int is_next(char wanted)
{
    while (isspace((unsigned char)*at))
        at++;
    if (*at != wanted)
        return 0;
    at++;
    return 1;
}

static struct variable *find(const char *name, size_t length)
{
    for (struct variable *variable = variables; variable; variable = variable->next)
        if (strlen(variable->name) == length && memcmp(variable->name, name, length) == 0)
            return variable;
    return NULL;
}

static struct variable *make(const char *name, size_t length)
{
    struct variable *variable = calloc(1, sizeof *variable + length + 1);
    if (!variable)
        fail("no memory");
    memcpy(variable->name, name, length);
    variable->next = variables;
    return variables = variable;
}

static size_t name_length(void)
{
    size_t length = 0;
    while (isalpha((unsigned char)at[length]))
        length++;
    return length;
}

/* A name, which is given a value where = follows. */
static double named(void)
{
    const char *name = at;
    size_t length = name_length();
    at += length;
    struct variable *variable = find(name, length);
    if (is_next('=')) {
        double value = sum();
        if (!variable)
            variable = make(name, length);
        return variable->value = value;
    }
    if (!variable)
        fail("an unknown name");
    return variable->value;
}

static double operand(void)
{
    if (is_next('(')) {
        double value = sum();
        if (!is_next(')'))
            fail("a ) is missing");
        return value;
    }
    if (is_next('-'))
        return -operand();
    if (name_length() > 0)
        return named();
    char *end;
    double value = strtod(at, &end);
    if (end == at)
        fail("a number is missing");
    at = end;
    return value;
}

static double power(void)
{
    double base = operand();
    return is_next('^') ? pow(base, power()) : base;
}

static double product(void)
{
    double value = power();
    for (;;) {
        if (is_next('*'))
            value *= power();
        else if (is_next('/'))
            value /= power();
        else
            return value;
    }
}

static double sum(void)
{
    double value = product();
    for (;;) {
        if (is_next('+'))
            value += product();
        else if (is_next('-'))
            value -= product();
        else
            return value;
    }
}

int main(void)
{
    static char line[400];
    while (fgets(line, sizeof line, stdin)) {
        line[strcspn(line, "\n")] = 0;
        at = line;
        if (setjmp(next_line))
            continue;
        double value = sum();
        if (*at)
            fail("too much");
        printf("%.10g\n", value);
    }
    return 0;
}
