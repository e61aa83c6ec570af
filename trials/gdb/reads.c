/* Reads lines from the console, and prints how long each is. */
#include "console.h"
#include "print.h"

static char line[64];

static __attribute__((noinline)) int line_length(void)
{
    return read(0, line, sizeof line) - 1;
}

int main(void)
{
    open_console();
    for (;;) {
        print_number(1, line_length());
        print(1, "\n");
    }
}
