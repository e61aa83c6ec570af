/* init: the first process. It opens the console, keeps a shell running, and never ends by itself. */
#include "kernel/types.h"
#include "kernel/fcntl.h"
#include "user/user.h"

static char *words[] = { "sh", 0 };

static void open_console(void)
{
    if (open("console", O_RDWR) < 0) {
        mknod("console", 1, 0);
        open("console", O_RDWR);
    }
    dup(0);
    dup(0);
}

/* Returns the shell's pid. */
static int start_shell(void)
{
    printf("init: starting sh\n");
    int pid = fork();
    if (pid < 0) {
        printf("init: no room for sh\n");
        exit(1);
    }
    if (pid == 0) {
        exec("sh", words);
        printf("init: exec sh failed\n");
        exit(1);
    }
    return pid;
}

int main(void)
{
    open_console();
    for (;;) {
        int shell = start_shell(), ended;
        do                      /* processes whose parents have ended are children of this one */
            ended = wait(0);
        while (ended >= 0 && ended != shell);
    }
}
