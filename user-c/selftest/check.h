/* What the tests share. A test is a function in a process of its own: it returns, or ends by WANT with the line of
   the first thing that isn't as it has to be. */
#ifndef SELFTEST_CHECK_H
#define SELFTEST_CHECK_H

#include "kernel/types.h"
#include "kernel/stat.h"
#include "kernel/fcntl.h"
#include "kernel/fs.h"
#include "kernel/param.h"
#include "kernel/syscall.h"
#include "user/user.h"

#define TEST(name, rule) void test_##name(void);
#include "tests.h"
#undef TEST

#define WANT(what) do { if (!(what)) exit(__LINE__); } while (0)

#define PAGE     4096
#define NOWHERE  ((char *)0x7ffffffff000)       /* where no page is */
#define LAST_PID 2147483647

extern char big[2 * PAGE];      /* bytes to read and to write */

/* A call by its number: arguments and answer are whole registers. */
long call(long number, long first, long second, long third);

/* ---- processes */

int child(void);                                /* fork, which has to answer a pid */
int status_of(void (*body)(void));              /* the status of a child that runs this, and then ends with 0 */
int zombie(void (*body)(void));                 /* the pid of such a child, which has ended */
void wait_for(int pid);                         /* for this child, which ends with 0 */
int run(char *words[]);                         /* the status of this program with these words after its name */
void give_turns(void);                          /* each other process that is ready has a turn */

/* A gate is a pipe: processes wait until it is opened. */
void make_gate(int gate[2]);
void wait_at(int gate[2]);
void open_gate(int gate[2]);

/* ---- limits */

int pages(void);                                /* of this process */
int page_frames(int pages);                     /* that this many pages take */
int process_frames(int pages);
int frames_free(void);
void leave_frames(int count);                   /* `count` are free, until */
void give_frames_back(void);

int index_blocks(int blocks);                   /* of a file with that many blocks of data */
int blocks_free(void);
void leave_blocks(int count);                   /* at most 8, until */
void give_blocks_back(void);

int inodes_free(void);
void leave_inodes(int count);
void give_inodes_back(void);

int leave_open_files(int count);                /* returns how many were free */
void give_open_files_back(void);

/* ---- program files */

struct header {
    char magic[16];
    ushort type, machine;
    uint version;
    uint64 entry, headers, sections;
    uint flags;
    ushort size, header_size, count, section_size, section_count, names;
};

struct segment {
    uint kind, flags;
    uint64 offset, address, physical, file_size, size, align;
};

#define EXECUTE 1
#define WRITE   2
#define READ    4

extern struct program {
    struct header header;
    struct segment segments[2];
    uint code[32];
} program;

#define CODE_AT ((uint64)((char *)program.code - (char *)&program))

void make_program(const uint *code, int count); /* of one segment with these instructions */
void save_program(const char *name, int count); /* as a file of `count` bytes */

/* ---- files and memory */

void fill(const char *name, const char *text);  /* a file with this text */
int size_of(const char *name);                  /* -1 where there is no such file */
int links_of(const char *name);
int number_of(const char *name);
int is_text(const char *name, const char *text);        /* whether the file has it */

void paint(char *from, int count, uchar byte);  /* `count` bytes, a multiple of 8 at one */
int is_painted(const char *from, int count, uchar byte);

char *page_end(void);                           /* the end of memory that can be written: sbrk gives nothing here */
char *guard_page(void);                         /* between the program and its stack */
char *stack_page(void);

#endif
