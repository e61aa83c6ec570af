/* rm NAME..: removes files and empty directories, up to the first that is refused. */
#include "kernel/types.h"
#include "user/user.h"

int main(int argc, char *argv[])
{
    int failed = argc < 2;
    for (int at = 1; at < argc && !failed; at++)
        failed = unlink(argv[at]) < 0;
    if (failed)
        fprintf(2, "rm: failed\n");
    exit(failed);
}
