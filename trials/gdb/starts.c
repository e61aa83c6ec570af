/* A child becomes another program. */
#include "console.h"
#include "print.h"

static char *const arguments[] = { "sum", "9", 0 };

int main(void)
{
    open_console();
    if (fork() == 0) {
        exec("/sum", arguments);
        print(2, "no /sum\n");
        return 1;
    }
    wait(0);
    print(1, "done\n");
    for (;;)
        sleep(1000);
}
