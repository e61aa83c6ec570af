/* Standard input, output and error. Output goes out line by line, and at the program's end. */
#include <stdio-bufio.h>
#include <stdio.h>
#include <unistd.h>

#define STREAM(file, room, flags, buffered) \
    FDEV_SETUP_BUFIO(file, room, sizeof room, read, write, lseek, close, flags, buffered)

static char in_room[512], out_room[512], error_room[64];
static struct __file_bufio in = STREAM(0, in_room, __SRD, 0);
static struct __file_bufio out = STREAM(1, out_room, __SWR, __BLBF);
static struct __file_bufio error = STREAM(2, error_room, __SWR, __BLBF);

FILE *const stdin = &in.xfile.cfile.file;
FILE *const stdout = &out.xfile.cfile.file;
FILE *const stderr = &error.xfile.cfile.file;

__attribute__((destructor)) static void flush(void)
{
    fflush(stdout);
    fflush(stderr);
}
