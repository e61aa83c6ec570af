/* With a buffer of its own for the path of each directory. */
#include "kernel/types.h"
#include "kernel/stat.h"
#include "kernel/fcntl.h"
#include "kernel/fs.h"
#include "user/user.h"

static void find(char *path, char *target)
{
    char buf[256], *p;
    int fd;
    struct dirent de;
    struct stat st;

    if ((fd = open(path, O_RDONLY)) < 0) {
        fprintf(2, "find: cannot open %s\n", path);
        return;
    }
    if (fstat(fd, &st) < 0 || st.type != T_DIR) {
        fprintf(2, "find: %s is not a directory\n", path);
        close(fd);
        return;
    }
    strcpy(buf, path);
    p = buf + strlen(buf);
    *p++ = '/';
    while (read(fd, &de, sizeof(de)) == sizeof(de)) {
        if (de.inum == 0)
            continue;
        memmove(p, de.name, DIRSIZ);
        p[DIRSIZ] = 0;
        if (strcmp(p, ".") == 0 || strcmp(p, "..") == 0)
            continue;
        if (stat(buf, &st) < 0)
            continue;
        if (strcmp(p, target) == 0)
            printf("%s\n", buf);
        if (st.type == T_DIR)
            find(buf, target);
    }
    close(fd);
}

int main(int argc, char *argv[])
{
    if (argc < 3) {
        fprintf(2, "usage: find DIRECTORY NAME\n");
        exit(1);
    }
    find(argv[1], argv[2]);
    exit(0);
}
