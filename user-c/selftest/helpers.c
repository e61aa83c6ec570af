/* Processes, limits, files and memory, as the tests need them. */
#include "check.h"

char big[2 * PAGE] __attribute__((aligned(16)));

long call(long number, long first, long second, long third)
{
    register long a0 __asm__("a0") = first;
    register long a1 __asm__("a1") = second;
    register long a2 __asm__("a2") = third;
    register long a7 __asm__("a7") = number;
    __asm__ volatile("ecall" : "+r"(a0) : "r"(a1), "r"(a2), "r"(a7) : "memory");
    return a0;
}

/* ---- processes */

int child(void)
{
    int pid = fork();
    WANT(pid >= 0);
    return pid;
}

int status_of(void (*body)(void))
{
    int pid = child(), status;
    if (pid == 0) {
        body();
        exit(0);
    }
    WANT(wait(&status) == pid);
    return status;
}

int zombie(void (*body)(void))
{
    int gate[2];
    make_gate(gate);
    int pid = child();
    if (pid == 0) {
        close(gate[0]);
        body();
        exit(0);
    }
    wait_at(gate);              /* its end closes the pipe's last write end */
    close(gate[0]);
    return pid;
}

void wait_for(int pid)
{
    int status;
    WANT(wait(&status) == pid);
    WANT(status == 0);
}

int run(char *words[])
{
    int pid = child(), status;
    if (pid == 0) {
        exec("/selftest", words);
        exit(99);
    }
    WANT(wait(&status) == pid);
    return status;
}

static void nothing(void)
{
}

void give_turns(void)
{
    WANT(status_of(nothing) == 0);
}

void make_gate(int gate[2])
{
    WANT(pipe(gate) == 0);
}

void wait_at(int gate[2])
{
    char byte;
    close(gate[1]);
    read(gate[0], &byte, 1);
}

void open_gate(int gate[2])
{
    close(gate[0]);
    close(gate[1]);
}

/* ---- frames */

int pages(void)
{
    return ((uint64)sbrk(0) + PAGE - 1) / PAGE;
}

int page_frames(int pages)
{
    return pages + (pages + 511) / 512 + (pages > 0);
}

int process_frames(int pages)
{
    return 4 + page_frames(pages);
}

/* Takes as many pages as there are; returns how many. */
static int take_pages(void)
{
    int count = 0;
    for (int step = 1 << 15; step > 0; step /= 2)
        while (sbrk(PAGE * step) != SBRK_ERROR)
            count += step;
    return count;
}

/* Takes a frame, if there is one, by a pipe that stays. */
static int take_frame(void)
{
    int ends[2];
    return pipe(ends) == 0;
}

int frames_free(void)
{
    int own = pages(), taken = take_pages(), ends[2];
    int is_one_left = pipe(ends) == 0;  /* a page would have taken two */
    if (is_one_left)
        open_gate(ends);
    sbrk(-PAGE * taken);
    return page_frames(own + taken) - page_frames(own) + is_one_left;
}

/* Takes all frames except `count`, as they are asked for by tests. */
static void take_all_but(int count)
{
    int all = take_pages(), own = pages(), back = 0;
    take_frame();
    while (back < all && page_frames(own) - page_frames(own - back) < count)
        back++;
    sbrk(-PAGE * back);
    if (page_frames(own) - page_frames(own - back) > count)
        WANT(take_frame());
}

/* A child has the frames. It says by one pipe that it has them, and keeps them until the other is closed. */
static int frames_taken[2], frames_kept[2];

void leave_frames(int count)
{
    char byte = 0;
    make_gate(frames_taken);
    make_gate(frames_kept);
    if (child() == 0) {
        take_all_but(count);
        write(frames_taken[1], &byte, 1);
        wait_at(frames_kept);
        exit(0);
    }
    WANT(read(frames_taken[0], &byte, 1) == 1);
}

void give_frames_back(void)
{
    open_gate(frames_kept);
    open_gate(frames_taken);
    WANT(wait(0) > 0);
}

/* ---- blocks */

int index_blocks(int blocks)
{
    int past = blocks - NDIRECT - (int)NINDIRECT;
    return past > 0 ? 2 + (past + (int)NINDIRECT - 1) / (int)NINDIRECT : blocks > NDIRECT;
}

/* Writes to a new file until the disk is full; returns how many blocks it has. */
static int fill_file(int file, int piece)
{
    struct stat told;
    while (write(file, big, piece) == piece)
        ;
    fstat(file, &told);
    return told.size / BSIZE;
}

/* Fills the disk by two files: one that takes blocks of its own for numbers of others, and a small one that takes
   what is left then. Returns how many blocks that were. */
static int fill_disk(void)
{
    int large = open("large", O_CREATE | O_RDWR), small = open("small", O_CREATE | O_RDWR);
    WANT(large >= 0 && small >= 0);
    int blocks = fill_file(large, sizeof big);
    int rest = fill_file(small, BSIZE);
    close(large);
    close(small);
    return blocks + index_blocks(blocks) + rest;
}

int blocks_free(void)
{
    int count = fill_disk();
    give_blocks_back();
    return count;
}

void leave_blocks(int count)
{
    int spare = open("spare", O_CREATE | O_RDWR);
    WANT(write(spare, big, count * BSIZE) == count * BSIZE);
    close(spare);
    fill_disk();
    WANT(unlink("spare") == 0);
}

void give_blocks_back(void)
{
    WANT(unlink("large") == 0 && unlink("small") == 0);
}

/* ---- inodes */

static int made;

/* The name of one of 1000 files. */
static char *name_of(int file)
{
    static char name[] = "i000";
    name[1] = '0' + file / 100;
    name[2] = '0' + file / 10 % 10;
    name[3] = '0' + file % 10;
    return name;
}

static void make_files(void)
{
    int file;
    for (made = 0; made < 1000 && (file = open(name_of(made), O_CREATE | O_RDWR)) >= 0; made++)
        close(file);
}

int inodes_free(void)
{
    make_files();
    int count = made;
    give_inodes_back();
    return count;
}

void leave_inodes(int count)
{
    make_files();
    WANT(made < 1000);          /* an image with fewer inodes is asked for */
    for (; count > 0; count--)
        WANT(unlink(name_of(--made)) == 0);
}

void give_inodes_back(void)
{
    while (made > 0)
        WANT(unlink(name_of(--made)) == 0);
}

/* ---- program files */

struct program program;

void make_program(const uint *code, int count)
{
    memset(&program, 0, sizeof program);
    memmove(program.header.magic, "\177ELF", 4);
    program.header.headers = sizeof program.header;
    program.header.count = 1;
    program.segments[0] = (struct segment){ 1, READ | EXECUTE, CODE_AT, 0, 0, 4 * count, 4 * count, PAGE };
    memmove(program.code, code, 4 * count);
}

void save_program(const char *name, int count)
{
    int file = open(name, O_CREATE | O_TRUNC | O_RDWR);
    WANT(write(file, &program, count) == count);
    close(file);
}

/* ---- open files */

/* A small program, which takes few frames. It opens as many files as it can, writes to descriptor 1 how many these
   are, and keeps them until descriptor 0 is at its end. */
__asm__(
    "        .section .text.holder, \"ax\"\n"
    "holder: addi    sp, sp, -16\n"
    "        li      t0, '/'\n"
    "        sd      t0, 0(sp)\n"
    "        li      s0, -1\n"
    "1:      addi    s0, s0, 1\n"
    "        mv      a0, sp\n"
    "        li      a1, 0\n"
    "        li      a7, 15\n"             /* open */
    "        ecall\n"
    "        bge     a0, zero, 1b\n"
    "        sb      s0, 0(sp)\n"
    "        li      a0, 1\n"
    "        mv      a1, sp\n"
    "        li      a2, 1\n"
    "        li      a7, 16\n"             /* write */
    "        ecall\n"
    "        li      a0, 0\n"
    "        li      a7, 5\n"              /* read */
    "        ecall\n"
    "        li      a7, 2\n"              /* exit */
    "        ecall\n"
    "holder_end:\n");

extern const uint holder[], holder_end[];

/* Children have the open files, each as many as its descriptors allow. */
static int files_taken[2], files_kept[2], holders;

/* Becomes the small program, with descriptors for what it writes and waits for, and no others. */
static void hold_open_files(void)
{
    char *words[] = { "holder", 0 };
    close(0);
    dup(files_kept[0]);
    close(1);
    dup(files_taken[1]);
    for (int file = 2; file < NOFILE; file++)
        close(file);
    exec("holder", words);
    write(1, "", 1);            /* none: the test fails by that */
    exit(1);
}

int leave_open_files(int count)
{
    int spare[NOFILE], all = count + 4; /* the ends of both pipes are open files */
    char held;
    make_program(holder, holder_end - holder);
    save_program("holder", sizeof program);
    make_gate(files_taken);
    make_gate(files_kept);
    for (int at = 0; at < count; at++)
        WANT((spare[at] = open("/", O_RDONLY)) >= 0);
    do {
        if (child() == 0)
            hold_open_files();
        WANT(read(files_taken[0], &held, 1) == 1);
        holders++;
        all += held;
    } while (held > 0);
    for (int at = 0; at < count; at++)
        close(spare[at]);
    WANT(unlink("holder") == 0);
    return all;
}

void give_open_files_back(void)
{
    open_gate(files_kept);
    open_gate(files_taken);
    for (; holders > 0; holders--)
        WANT(wait(0) > 0);
}

/* ---- files */

void fill(const char *name, const char *text)
{
    int file = open(name, O_CREATE | O_TRUNC | O_RDWR), count = strlen(text);
    WANT(file >= 0);
    WANT(write(file, text, count) == count);
    WANT(close(file) == 0);
}

int size_of(const char *name)
{
    struct stat told;
    return stat(name, &told) < 0 ? -1 : (int)told.size;
}

int links_of(const char *name)
{
    struct stat told;
    return stat(name, &told) < 0 ? -1 : told.nlink;
}

int number_of(const char *name)
{
    struct stat told;
    return stat(name, &told) < 0 ? -1 : (int)told.ino;
}

int is_text(const char *name, const char *text)
{
    char bytes[64];
    int file = open(name, O_RDONLY), count = read(file, bytes, sizeof bytes);
    close(file);
    return count == (int)strlen(text) && memcmp(bytes, text, count) == 0;
}

/* ---- memory */

static uint64 repeated(uchar byte)
{
    return byte * 0x0101010101010101;
}

void paint(char *from, int count, uchar byte)
{
    for (uint64 *at = (uint64 *)from, *end = at + count / 8; at < end; at++)
        *at = repeated(byte);
}

int is_painted(const char *from, int count, uchar byte)
{
    for (const uint64 *at = (const uint64 *)from, *end = at + count / 8; at < end; at++)
        if (*at != repeated(byte))
            return 0;
    return 1;
}

char *stack_page(void)
{
    char here;
    return (char *)((uint64)&here / PAGE * PAGE);
}

char *guard_page(void)
{
    return stack_page() - PAGE;
}

char *page_end(void)
{
    return stack_page() + PAGE;
}
