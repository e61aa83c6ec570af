/* Files and directories. */
#include <fcntl.h>
#include <stdio.h>
#include <stdlib.h>
#include <string.h>
#include <sys/stat.h>
#include <unistd.h>
#include "kernel.h"

/* What the kernel's open takes. */
enum { WRITE_ONLY = 1, READ_WRITE = 2, CREATE = 0x200, TRUNCATE = 0x400 };

/* What its fstat writes. */
struct record {
    int device;
    unsigned number;
    short kind, links;
    unsigned zero;
    unsigned long size;
};

enum { DIRECTORY = 1, FILE_KIND, DEVICE };

/* What lseek needs of a descriptor: how it was opened, and its offset. There is no path where it wasn't opened here. */
static struct opened {
    char *path;
    int flags;
    long place;
} opened[DESCRIPTORS];

static int is_descriptor(int file)
{
    return file >= 0 && file < DESCRIPTORS;
}

static void forget(int file)
{
    free(opened[file].path);
    opened[file] = (struct opened){ 0 };
}

static int is_there(const char *path)
{
    int file = kernel(OPEN, (long)path, 0, 0);
    if (file >= 0)
        kernel(CLOSE, file, 0, 0);
    return file >= 0;
}

/* What is only to be written is opened for both, so that lseek can read its way. */
static int flags_of(int flags)
{
    int mode = (flags & O_ACCMODE) == O_RDONLY ? 0 : READ_WRITE;
    return mode | (flags & O_CREAT ? CREATE : 0) | (flags & O_TRUNC ? TRUNCATE : 0);
}

int open(const char *path, int flags, ...)
{
    if ((flags & O_CREAT) && (flags & O_EXCL) && is_there(path))
        return told(-1, EEXIST);
    int file = told(kernel(OPEN, (long)path, flags_of(flags), 0), ENOENT);
    if (file < 0)
        return -1;
    forget(file);
    opened[file].path = strdup(path);
    opened[file].flags = flags_of(flags) & READ_WRITE;
    if (flags & O_APPEND)
        lseek(file, 0, SEEK_END);
    return file;
}

int close(int file)
{
    if (is_descriptor(file))
        forget(file);
    return told(kernel(CLOSE, file, 0, 0), EBADF);
}

/* Moves the offset on by the bytes that came or went. */
static long moved(int file, long count)
{
    if (count > 0 && is_descriptor(file))
        opened[file].place += count;
    return count;
}

ssize_t read(int file, void *to, size_t count)
{
    return moved(file, told(kernel(READ, file, (long)to, count), EBADF));
}

ssize_t write(int file, const void *from, size_t count)
{
    return moved(file, told(kernel(WRITE, file, (long)from, count), ENOSPC));
}

/* ---- lseek: the kernel has no such call */

/* Has a descriptor name the open file of another one, which is closed. dup takes the lowest that is free, so those
   below are taken for the while. */
static void put_in_place(int from, int file)
{
    int below[DESCRIPTORS], count = 0, taken;
    kernel(CLOSE, file, 0, 0);
    while ((taken = kernel(DUP, from, 0, 0)) >= 0 && taken != file)
        below[count++] = taken;
    while (count > 0)
        kernel(CLOSE, below[--count], 0, 0);
    kernel(CLOSE, from, 0, 0);
}

/* Opens the file again, from its start, if it still has its name. */
static int open_again(int file, unsigned number)
{
    struct record record;
    int again = kernel(OPEN, (long)opened[file].path, opened[file].flags, 0);
    if (again < 0)
        return told(-1, ESPIPE);
    if (kernel(FSTAT, again, (long)&record, 0) < 0 || record.number != number) {
        kernel(CLOSE, again, 0, 0);
        return told(-1, ESPIPE);
    }
    put_in_place(again, file);
    opened[file].place = 0;
    return 0;
}

/* Reads on up to an offset. */
static off_t read_up_to(int file, long place)
{
    static char skipped[1024];
    while (opened[file].place < place) {
        long rest = place - opened[file].place;
        if (read(file, skipped, rest < (long)sizeof skipped ? rest : (long)sizeof skipped) <= 0)
            return told(-1, EIO);
    }
    return place;
}

off_t lseek(int file, off_t offset, int whence)
{
    struct record record;
    if (!is_descriptor(file) || kernel(FSTAT, file, (long)&record, 0) < 0)
        return told(-1, EBADF);
    if (record.kind != FILE_KIND || !opened[file].path)
        return told(-1, ESPIPE);
    long place = offset + (whence == SEEK_CUR ? opened[file].place : whence == SEEK_END ? (long)record.size : 0);
    if (place < 0 || place > (long)record.size)
        return told(-1, EINVAL);                /* a file has no holes */
    if (place < opened[file].place && open_again(file, record.number) < 0)
        return -1;
    return read_up_to(file, place);
}

/* ---- what files are */

static mode_t mode_of(short kind)
{
    return kind == DIRECTORY ? S_IFDIR | 0777 : kind == DEVICE ? S_IFCHR | 0666 : S_IFREG | 0666;
}

int fstat(int file, struct stat *out)
{
    struct record record;
    if (kernel(FSTAT, file, (long)&record, 0) < 0)
        return told(-1, EBADF);
    memset(out, 0, sizeof *out);
    out->st_dev = record.device;
    out->st_ino = record.number;
    out->st_nlink = record.links;
    out->st_size = record.size;
    out->st_mode = mode_of(record.kind);
    return 0;
}

int stat(const char *path, struct stat *out)
{
    int file = told(kernel(OPEN, (long)path, 0, 0), ENOENT);
    if (file < 0)
        return -1;
    int answer = fstat(file, out);
    kernel(CLOSE, file, 0, 0);
    return answer;
}

int isatty(int file)
{
    struct record record;
    if (kernel(FSTAT, file, (long)&record, 0) == 0 && record.kind == DEVICE)
        return 1;
    errno = ENOTTY;
    return 0;
}

/* ---- names and descriptors */

int link(const char *old, const char *new)
{
    return told(kernel(LINK, (long)old, (long)new, 0), ENOENT);
}

int unlink(const char *path)
{
    return told(kernel(UNLINK, (long)path, 0, 0), ENOENT);
}

/* The name that is there is taken away first, so there is a moment without it. */
int rename(const char *old, const char *new)
{
    if (!is_there(old))
        return told(-1, ENOENT);
    kernel(UNLINK, (long)new, 0, 0);
    return link(old, new) < 0 ? -1 : unlink(old);
}

int mkdir(const char *path, mode_t mode)
{
    (void)mode;
    return told(kernel(MKDIR, (long)path, 0, 0), EEXIST);
}

int chdir(const char *path)
{
    return told(kernel(CHDIR, (long)path, 0, 0), ENOENT);
}

int dup(int file)
{
    int copy = told(kernel(DUP, file, 0, 0), EBADF);
    if (copy >= 0)
        forget(copy);
    return copy;
}

int pipe(int ends[2])
{
    return told(kernel(PIPE, (long)ends, 0, 0), EMFILE);
}
