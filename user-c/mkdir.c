/* mkdir DIRECTORY..: makes directories, up to the first that is refused. */
#include "kernel/types.h"
#include "user/user.h"

int main(int argc, char *argv[])
{
    int failed = argc < 2;
    for (int at = 1; at < argc && !failed; at++)
        failed = mkdir(argv[at]) < 0;
    if (failed)
        fprintf(2, "mkdir: failed\n");
    exit(failed);
}
