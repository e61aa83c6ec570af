/* selftest [WORD..]: tests the kernel's calls, by a process a test: all, or those whose names begin with one of the
   words. docs/SELFTEST.md says which rule each is of. The file is /selftest, and the first shell runs it. */
#include "check.h"

static const struct test {
    const char *name;
    void (*body)(void);
} tests[] = {
#define TEST(name, rule) { #name, test_##name },
#include "tests.h"
#undef TEST
};

#define TESTS (int)(sizeof tests / sizeof *tests)

/* ---- what this program does where a test executes it */

/* The registers as the program began, except ra and t0. */
uint64 first_registers[32];

/* Keeps them, and goes on with begin. */
__asm__(
    "        .section .text.main, \"ax\"\n"
    "        .globl  main\n"
    "main:   la      t0, first_registers\n"
    "        .irp    number, 2,3,4,6,7,8,9,10,11,12,13,14,15,16,17,18,19,20,21,22,23,24,25,26,27,28,29,30,31\n"
    "        sd      x\\number, 8 * \\number(t0)\n"
    "        .endr\n"
    "        tail    begin\n");

/* The registers after exec are those before it, except sp, a0 and a1. */
static void want_registers(void)
{
    static const short wanted[32] = {
        0, 0, 0, 203, 204, 0, 301, 302, 400, 401, 3, 0, 102, 103, 104, 105, 106, 7, 402, 403, 404, 405, 406, 407, 408, 409, 410, 411,
        303, 304, 305, 306,
    };
    for (int number = 3; number < 32; number++)
        WANT(number == 5 || number == 10 || number == 11 || first_registers[number] == (uint64)wanted[number]);
    WANT(first_registers[10] == 2 && first_registers[11] == first_registers[2]);
}

static void want_same(int argc, char *argv[])
{
    static const char *const words[] = { "", "same", "", "a b", "abcdefghijklmno", "0123456789abcdef" };
    WANT(argc == 6 && argv[6] == 0);
    for (int at = 0; at < 6; at++)
        WANT(strcmp(argv[at], words[at]) == 0);
}

static void want_aligned(int argc, char *argv[])
{
    WANT(first_registers[2] % 16 == 0 && first_registers[2] == (uint64)argv);
    for (int at = 0; at < argc; at++)
        WANT((uint64)argv[at] % 16 == 0);
    WANT((char *)argv < argv[argc - 1] && argv[0] < page_end());
}

/* No byte that another program had: bss is 0, and so is the stack below what this one has used. */
static void want_clear(void)
{
    WANT(is_painted(big, sizeof big, 0) && is_painted(stack_page(), PAGE / 2, 0));
    WANT(sbrk(0) == page_end());
}

static void tell_place(void)
{
    int pid = getpid(), number = number_of(".");
    write(4, &pid, 4);
    write(4, &number, 4);
}

static void act(int argc, char *argv[])
{
    const char *word = argv[1];
    char byte;
    if (strcmp(word, "end") == 0)
        exit(atoi(argv[2]));
    if (strcmp(word, "count") == 0)
        exit(argc);
    if (strcmp(word, "file") == 0)
        exit(read(3, &byte, 1) == 1 ? byte : -1);
    if (strcmp(word, "same") == 0)
        want_same(argc, argv);
    if (strcmp(word, "aligned") == 0)
        want_aligned(argc, argv);
    if (strcmp(word, "registers") == 0)
        want_registers();
    if (strcmp(word, "clear") == 0)
        want_clear();
    if (strcmp(word, "place") == 0)
        tell_place();
    exit(0);
}

/* ---- the tests */

/* What is free: as much has to be free after the tests. */
struct room { int frames, blocks, inodes; };

static struct room measure(void)
{
    struct room room;
    room.inodes = inodes_free();        /* first: its names make the directory longer */
    room.blocks = blocks_free();
    room.frames = frames_free();
    return room;
}

static int compare(const char *what, int before, int after)
{
    if (before != after)
        printf("%s: FAIL, %d were free and then %d\n", what, before, after);
    return before != after;
}

/* Whether a word is the beginning of the name, or there is none. */
static int is_asked_for(const char *name, int argc, char *argv[])
{
    for (int at = 1; at < argc; at++)
        if (memcmp(argv[at], name, strlen(argv[at])) == 0)
            return 1;
    return argc < 2;
}

/* Returns whether it failed. */
static int do_test(const struct test *test)
{
    int status, pid = fork();
    if (pid == 0) {
        test->body();
        exit(0);
    }
    if (pid < 0 || wait(&status) != pid)
        status = -1;
    if (status != 0)
        printf("%s: FAIL, %s %d\n", test->name, status < 0 ? "status" : "line", status);
    return status != 0;
}

/* Tests of the clock are named so; before them some 100000 steps have passed, so it has struck if there is one. */
static int is_left_out(const struct test *test)
{
    return memcmp(test->name, "clock", 5) == 0 && uptime() == 0;
}

static int do_tests(int argc, char *argv[])
{
    int failed = 0, done = 0, left_out = 0;
    for (const struct test *test = tests; test < tests + TESTS; test++) {
        if (!is_asked_for(test->name, argc, argv))
            continue;
        if (is_left_out(test)) {
            left_out++;
            continue;
        }
        failed += do_test(test);
        done++;
    }
    if (left_out)
        printf("%d tests need a clock\n", left_out);
    printf("%d tests, ", done);
    return failed;
}

int begin(int argc, char *argv[])
{
    if (argc > 1 && strlen(argv[0]) < 2)
        act(argc, argv);
    if (mkdir("/selftest.d") < 0 || chdir("/selftest.d") < 0) {
        fprintf(2, "selftest: cannot make /selftest.d\n");
        exit(1);
    }
    struct room before = measure();
    int failed = do_tests(argc, argv);
    struct room after = measure();
    chdir("/");
    unlink("/selftest.d");
    printf("%d failed\n", failed);
    failed += compare("frames", before.frames, after.frames);
    failed += compare("blocks", before.blocks, after.blocks);
    failed += compare("inodes", before.inodes, after.inodes);
    exit(failed != 0);
}
