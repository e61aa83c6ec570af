/* ls PATH..: of each file its name, type, inode's number and length; of a directory those of its files. */
#include "kernel/types.h"
#include "kernel/stat.h"
#include "kernel/fcntl.h"
#include "kernel/fs.h"
#include "kernel/param.h"
#include "user/user.h"

static void show(const char *name, const struct stat *of)
{
    printf("%s", name);
    for (int count = strlen(name); count < DIRSIZ; count++)
        printf(" ");
    printf(" %d %d %d\n", of->type, of->ino, (int)of->size);
}

/* Joins a directory's path and the name of an entry, which has no 0 after it where it is as long as it may be;
   returns the name's start. */
static char *join(char *path, const char *directory, const struct dirent *entry)
{
    strcpy(path, directory);
    char *name = path + strlen(path);
    *name++ = '/';
    memmove(name, entry->name, DIRSIZ);
    name[DIRSIZ] = 0;
    return name;
}

static void list_entries(int file, const char *directory)
{
    static char path[MAXPATH + 1 + DIRSIZ + 1];
    struct dirent entry;
    struct stat told;
    while (read(file, &entry, sizeof entry) == sizeof entry) {
        if (entry.inum == 0)
            continue;
        char *name = join(path, directory, &entry);
        if (stat(path, &told) < 0)
            fprintf(2, "ls: cannot open %s\n", path);
        else
            show(name, &told);
    }
}

static void list(const char *path)
{
    struct stat told;
    int file = open(path, O_RDONLY);
    if (file < 0 || fstat(file, &told) < 0) {
        fprintf(2, "ls: cannot open %s\n", path);
        exit(1);
    }
    if (told.type == T_DIR)
        list_entries(file, path);
    else
        show(path, &told);
    close(file);
}

int main(int argc, char *argv[])
{
    if (argc < 2)
        list(".");
    for (int at = 1; at < argc; at++)
        list(argv[at]);
    exit(0);
}
