/* files: prints which descriptors are open. */
#include "kernel/types.h"
#include "kernel/param.h"
#include "user/user.h"

int main(void)
{
    int is_open[NOFILE];
    for (int file = 0; file < NOFILE; file++) {
        int copy = dup(file);
        is_open[file] = copy >= 0;
        close(copy);
    }
    for (int file = 0; file < NOFILE; file++)
        if (is_open[file])
            printf("%d ", file);
    printf("\n");
    return 0;
}
