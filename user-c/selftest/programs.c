/* exec: what it takes, and how a program begins. */
#include "check.h"

static char *end_words[] = { "x", "end", "0", 0 };

void test_exec_replaces(void)
{
    char *words[] = { "x", "end", "7", 0 };
    WANT(run(words) == 7);
}

void test_exec_refuses_path(void)
{
    fill("f", "no program");
    fill("empty", "");
    WANT(mknod("v", 7, 0) == 0);
    WANT(exec("none", end_words) == -1);
    WANT(exec("/", end_words) == -1);
    WANT(exec("v", end_words) == -1);
    WANT(exec("f", end_words) == -1 && exec("empty", end_words) == -1);
    WANT(exec("f/x", end_words) == -1);
    WANT(exec(NOWHERE, end_words) == -1);
    WANT(unlink("f") == 0 && unlink("empty") == 0 && unlink("v") == 0);
}

void test_exec_refuses_words(void)
{
    char *words[] = { "x", NOWHERE, 0 };
    WANT(exec("/selftest", (char **)NOWHERE) == -1);
    WANT(exec("/selftest", (char **)guard_page()) == -1);
    WANT(exec("/selftest", words) == -1);
    char **last = (char **)(page_end() - 8);    /* no 0 comes after it */
    *last = "x";
    WANT(exec("/selftest", last) == -1);
    char *text = page_end() - 2;                /* neither here */
    text[0] = text[1] = 'x';
    words[1] = text;
    WANT(exec("/selftest", words) == -1);
}

/* The program ends with the number of its words. */
void test_exec_takes_31_words(void)
{
    char *words[MAXARG + 1] = { "x", "count" };
    for (int at = 2; at <= MAXARG; at++)
        words[at] = "w";
    words[MAXARG] = 0;
    WANT(exec("/selftest", words) == -1);       /* 32 */
    words[MAXARG - 1] = 0;
    WANT(run(words) == 31);
    words[2] = 0;
    WANT(run(words) == 2);
}

/* None: a0 is 0, with which the program ends: li a7, 2; ecall. */
void test_exec_takes_no_word(void)
{
    static const uint code[] = { 0x00200893, 0x00000073 };
    char *words[] = { 0 };
    make_program(code, 2);
    save_program("p", sizeof program);
    int pid = child(), status;
    if (pid == 0) {
        exec("p", words);
        exit(99);
    }
    WANT(wait(&status) == pid && status == 0);
    WANT(unlink("p") == 0);
}

void test_exec_passes_words(void)
{
    char *words[] = { "", "same", "", "a b", "abcdefghijklmno", "0123456789abcdef", 0 };
    WANT(run(words) == 0);
}

/* Words of 16, 16 and the rest of the page, with the four addresses and a 0: all of its 4096 bytes. The program has no
   stack then, and ends with -1. */
void test_exec_takes_page_of_words(void)
{
    char *words[] = { "x", "page", big, 0 };
    memset(big, 't', PAGE - 64 - 1);
    WANT(run(words) == -1);
    big[PAGE - 64 - 1] = 't';
    WANT(exec("/selftest", words) == -1);
}

void test_exec_aligns_stack(void)
{
    static char text[20];
    char *words[] = { "x", "aligned", text, 0 };
    for (int count = 0; count < 19; count++) {
        memset(text, 't', count);
        text[count] = 0;
        WANT(run(words) == 0);
    }
}

/* Sets registers that a call doesn't take, and then does exec. */
static void exec_with_registers(char *words[])
{
    register const char *path __asm__("a0") = "/selftest";
    register char **argv __asm__("a1") = words;
    __asm__ volatile(
        "li a2, 102\n li a3, 103\n li a4, 104\n li a5, 105\n li a6, 106\n li gp, 203\n li tp, 204\n"
        "li t1, 301\n li t2, 302\n li t3, 303\n li t4, 304\n li t5, 305\n li t6, 306\n li s0, 400\n li s1, 401\n"
        "li s2, 402\n li s3, 403\n li s4, 404\n li s5, 405\n li s6, 406\n li s7, 407\n li s8, 408\n li s9, 409\n"
        "li s10, 410\n li s11, 411\n li a7, 7\n ecall\n li a0, 97\n li a7, 2\n ecall" ::"r"(path), "r"(argv) : "memory");
}

void test_exec_keeps_registers(void)
{
    char *words[] = { "x", "registers", 0 };
    int pid = child(), status;
    if (pid == 0)
        exec_with_registers(words);
    WANT(wait(&status) == pid && status == 0);
}

void test_exec_keeps_open_files(void)
{
    char *words[] = { "x", "file", 0 };
    fill("f", "abcdef");
    int file = open("f", O_RDONLY);
    WANT(file == 3 && read(file, big, 2) == 2); /* the program reads the next byte */
    WANT(run(words) == 'c');
    WANT(read(file, big, 1) == 1 && big[0] == 'd');
    WANT(unlink("f") == 0);
}

void test_exec_keeps_pid_and_directory(void)
{
    char *words[] = { "x", "place", 0 };
    int told[2], number;
    WANT(mkdir("d") == 0);
    make_gate(told);                            /* descriptors 3 and 4 */
    int pid = child();
    if (pid == 0) {
        WANT(chdir("d") == 0);
        exec("/selftest", words);
        exit(99);
    }
    WANT(read(told[0], &number, 4) == 4 && number == pid);
    WANT(read(told[0], &number, 4) == 4 && number == number_of("d"));
    wait_for(pid);
    WANT(unlink("d") == 0);
}

/* Memory is the new program's alone: no page that sbrk gave before, no byte that was stored. */
void test_exec_clears_memory(void)
{
    char *words[] = { "x", "clear", 0 };
    int pid = child(), status;
    if (pid == 0) {
        paint(big, sizeof big, 0x66);
        paint(sbrk(5 * PAGE), 5 * PAGE, 0x66);
        exec("/selftest", words);
        exit(99);
    }
    WANT(wait(&status) == pid && status == 0);
}

/* The new program's frames, except one of the process, have to be free while the old one is held. */
void test_exec_takes_frames(void)
{
    static int need;
    need = process_frames(pages()) - 1;
    int pid = child(), status;
    if (pid == 0) {
        leave_frames(need - 1);
        WANT(exec("/selftest", end_words) == -1);
        give_frames_back();
        leave_frames(need);
        exec("/selftest", end_words);
        exit(99);
    }
    WANT(wait(&status) == pid && status == 0);
}

/* A refusal gives back what was made before it. */
void test_exec_refused_takes_no_frames(void)
{
    char *words[] = { "x", big, 0 };
    int free = frames_free();
    memset(big, 't', PAGE - 1);
    for (int times = 0; times < 3; times++) {
        WANT(exec("none", end_words) == -1);
        WANT(exec("/selftest", words) == -1);
    }
    WANT(frames_free() == free);
}

/* ---- program files, made here */

/* The status of the program with the first `count` bytes of the file: 99 where exec refuses it. */
static int run_bytes(int count)
{
    save_program("p", count);
    int pid = child(), status;
    if (pid == 0) {
        exec("p", end_words);
        exit(99);
    }
    WANT(wait(&status) == pid);
    WANT(unlink("p") == 0);
    return status;
}

static int run_file(void)
{
    return run_bytes(sizeof program);
}

/* li a0, 5; li a7, 2; ecall */
static const uint exits[] = { 0x00500513, 0x00200893, 0x00000073 };

/* Another answer than that of the program before: lw a0, 0(a2); li a7, 2; ecall, with a2 = from << 12 by lui. */
static void make_reader(uint from)
{
    uint code[] = { 0x00000637 | from << 12, 0x00062503, 0x00200893, 0x00000073 };
    make_program(code, 4);
}

void test_program_headers(void)
{
    make_program(exits, 3);
    WANT(run_file() == 5);
    WANT(run_bytes(CODE_AT + 12) == 5);
    WANT(run_bytes(CODE_AT + 11) == 99);        /* the segment's bytes aren't there */
    WANT(run_bytes(63) == 99);
    program.header.magic[3] = 'f';
    WANT(run_file() == 99);
    program.header.magic[3] = 'F';
    program.header.magic[4] = 77;                  /* nothing else of it is looked at */
    program.header.machine = 77;
    WANT(run_file() == 5);
    program.header.count = 3;                      /* the third is in the code, of another type */
    WANT(run_file() == 5);
    program.header.headers = sizeof program - 56;     /* the last bytes, then one too many */
    program.header.count = 1;
    memmove((char *)&program + sizeof program - 56, &program.segments[0], 56);
    WANT(run_file() == 5);
    program.header.count = 2;
    WANT(run_file() == 99);
}

void test_program_entry(void)
{
    static const uint later[] = { 0, 0, 0x00500513, 0x00200893, 0x00000073 };
    make_program(later, 5);
    WANT(run_file() == -1);                     /* 0 is no instruction */
    program.header.entry = 8;
    WANT(run_file() == 5);
    program.header.entry = 11;                     /* the lowest two bits are cleared */
    WANT(run_file() == 5);
    program.code[2] = 0x00000517;               /* auipc a0, 0: where it is, as the status */
    WANT(run_file() == 8);
    program.header.entry = PAGE;
    WANT(run_file() == -1);
    program.header.count = 0;                      /* no page at all */
    WANT(run_file() == -1);
}

void test_program_segments(void)
{
    make_program(exits, 3);
    struct segment *segment = &program.segments[0];
    segment->size = 11;                         /* less memory than bytes */
    WANT(run_file() == 99);
    segment->size = 12;
    segment->address = 8;                       /* no page's start */
    WANT(run_file() == 99);
    segment->address = -(uint64)PAGE;           /* up to 2^64 */
    segment->size = PAGE;
    WANT(run_file() == 99);
    segment->address = 0;
    segment->size = 12;
    segment->offset = -(uint64)4;
    WANT(run_file() == 99);
    segment->offset = CODE_AT;
    segment->kind = 2;                          /* skipped */
    WANT(run_file() == -1);
    segment->kind = 1;
    segment->flags = READ;                      /* can't be executed */
    WANT(run_file() == -1);
    segment->flags = EXECUTE;                   /* can be read all the same */
    WANT(run_file() == 5);
}

void test_program_segments_follow(void)
{
    make_reader(1);
    struct segment *second = &program.segments[1];
    program.header.count = 2;
    *second = (struct segment){ 1, READ, CODE_AT, PAGE, 0, 4, 4, PAGE };
    WANT(run_file() == (int)program.code[0]);
    second->address = 0;                        /* where the first is */
    WANT(run_file() == 99);
    second->address = 2 * PAGE;                 /* pages between are given */
    WANT(run_file() == 0);
    second->address = PAGE;
    second->file_size = 0;                      /* bytes that the file doesn't have are 0 */
    second->offset = 1 << 30;
    WANT(run_file() == 0);
    program.segments[0].size = PAGE + 1;           /* up to its page's end */
    WANT(run_file() == 99);
    second->address = 2 * PAGE;
    WANT(run_file() == 0);
    second->size = 0;
    second->address = 0;                        /* one without bytes counts too */
    WANT(run_file() == 99);
}

/* sw a0, 0(a2) with a2 = 4096; li a0, 5; li a7, 2; ecall. A segment is written only where its flags say so. */
void test_program_marks(void)
{
    static const uint stores[] = { 0x00001637, 0x00a62023, 0x00500513, 0x00200893, 0x00000073 };
    make_program(stores, 5);
    program.header.count = 2;
    program.segments[1] = (struct segment){ 1, READ | WRITE, CODE_AT, PAGE, 0, 4, 4, PAGE };
    WANT(run_file() == 5);
    program.segments[1].flags = READ;
    WANT(run_file() == -1);
    program.segments[1].address = 2 * PAGE;
    WANT(run_file() == -1);
    program.segments[1].flags = READ | WRITE;      /* the pages between have its marks */
    WANT(run_file() == 5);
}
