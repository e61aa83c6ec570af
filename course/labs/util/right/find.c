/* find DIRECTORY NAME: prints the path of all that has the name, in the directory and below it. */
#include "kernel/types.h"
#include "kernel/stat.h"
#include "kernel/fcntl.h"
#include "kernel/fs.h"
#include "user/user.h"

static char path[512];          /* of what is looked at */

static int is_dots(const char *name)
{
    return !strcmp(name, ".") || !strcmp(name, "..");
}

/* Looks through the directory of the path, whose end this is. */
static void find(char *end, const char *wanted)
{
    struct dirent entry;
    struct stat told;
    char name[DIRSIZ + 1] = { 0 };      /* one of 14 bytes has no 0 after it in the entry */
    int directory = open(path, O_RDONLY);
    if (directory < 0) {
        fprintf(2, "find: cannot open %s\n", path);
        return;
    }
    while (read(directory, &entry, sizeof entry) == sizeof entry) {
        memmove(name, entry.name, DIRSIZ);
        if (entry.inum == 0 || is_dots(name))
            continue;
        *end = '/';
        strcpy(end + 1, name);
        if (!strcmp(name, wanted))
            printf("%s\n", path);
        if (stat(path, &told) == 0 && told.type == T_DIR)
            find(end + 1 + strlen(name), wanted);
        *end = 0;
    }
    close(directory);
}

int main(int argc, char *argv[])
{
    if (argc != 3) {
        fprintf(2, "usage: find DIRECTORY NAME\n");
        exit(1);
    }
    strcpy(path, argv[1]);
    find(path + strlen(path), argv[2]);
    exit(0);
}
