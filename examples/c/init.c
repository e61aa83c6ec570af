/* The first process: opens the console, has a child become the program /count, and prints how that ended. When it ends itself,
   the machine halts. */
#include "console.h"
#include "print.h"

static char *const arguments[] = { "count", "notes", 0 };

int main(void)
{
    open_console();
    print(1, "init: process ");
    print_number(1, getpid());
    print(1, " starts count\n");
    int child = fork();
    if (child == 0) {
        exec("/count", arguments);
        print(2, "init: no count\n");
        return 1;
    }
    int status;
    if (wait(&status) != child)
        return 1;
    print(1, "init: count has ended with ");
    print_number(1, status);
    print(1, "\n");
    return 0;
}
