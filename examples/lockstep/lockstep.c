/* lockstep.c IMAGE [LINE..]: boots an image, types the lines at it, and compares an interpreter with the machine of libxv6, instruction by
   instruction: the registers, the pc, and the bytes that were stored. The machine does the calls; after one the interpreter begins anew
   with what the machine shows of the process. The first difference is printed in three lines, and the status is 1 then. */
#include "rv64.h"
#include "xv6.h"

#include <inttypes.h>
#include <stdio.h>
#include <stdlib.h>
#include <string.h>

#define FRAMES 256u

static struct xv6_machine machine;
static struct xv6_process process;  /* the one that runs */
static struct rv64 hart;            /* the interpreter */
static uint32_t followed;           /* the pid that the interpreter follows; 0: none */
static uint64_t steps, compared, calls;

static void fail(const char *why)
{
    fprintf(stderr, "lockstep: %s\n", why);
    exit(2);
}

/* Finds the process that runs. */
static int find_running(void)
{
    uint32_t pid = process.pid;
    if (pid != 0 && xv6_process(&machine, pid, &process) == 0 && process.state == XV6_RUNNING) return 1;
    for (pid = 0; (pid = xv6_next_pid(&machine, pid)) != 0;)
        if (xv6_process(&machine, pid, &process) == 0 && process.state == XV6_RUNNING) return 1;
    return 0;
}

/* The interpreter gets the registers and the pages of the process that runs. */
static void follow(void)
{
    uint64_t page, pages = process.size / RV64_PAGE;
    if (pages > hart.pages) {
        hart.memory = realloc(hart.memory, pages * RV64_PAGE);
        hart.marks = realloc(hart.marks, pages);
        if (hart.memory == NULL || hart.marks == NULL) fail("no memory");
    }
    for (page = 0; page < pages; page++) {
        uint32_t marks = xv6_page(&machine, process.pid, page, hart.memory + page * RV64_PAGE, RV64_PAGE);
        hart.marks[page] = (marks & XV6_READ ? RV64_READ : 0) | (marks & XV6_WRITE ? RV64_WRITE : 0) | (marks & XV6_EXECUTE ? RV64_EXECUTE : 0);
    }
    hart.pages = pages;
    memcpy(hart.x, process.registers, sizeof hart.x);
    hart.pc = process.pc;
    followed = process.pid;
}

/* ---- what differs */

/* What differs first, by its name, and what the two have there. */
struct difference {
    char name[16];
    uint64_t machine, other;
};

static int differ(struct difference *found, const char *name, unsigned number, uint64_t ours, uint64_t theirs)
{
    snprintf(found->name, sizeof found->name, name, number);
    found->machine = ours;
    found->other = theirs;
    return ours != theirs;
}

static uint64_t stored(const uint8_t *page)
{
    uint64_t value = 0;
    memcpy(&value, page + hart.stored % RV64_PAGE, hart.stored_bytes);
    return value;
}

static int compare(struct difference *found)
{
    unsigned i;
    uint8_t page[RV64_PAGE];
    if (differ(found, "pc", 0, process.pc, hart.pc)) return 1;
    for (i = 0; i < 32; i++)
        if (differ(found, "x%u", i, process.registers[i], hart.x[i])) return 1;
    if (hart.stored_bytes == 0) return 0;
    xv6_page(&machine, process.pid, hart.stored / RV64_PAGE, page, sizeof page);
    return differ(found, "memory", 0, stored(page), stored(hart.memory + (hart.stored & ~(uint64_t)(RV64_PAGE - 1))));
}

static int tell(const struct difference *found, uint64_t pc, uint32_t word)
{
    printf("lockstep: step %" PRIu64 ", pid %u, pc 0x%" PRIx64 ", word 0x%08" PRIx32 ": %s differs\n", steps, process.pid, pc, word, found->name);
    printf("the machine: 0x%016" PRIx64 "\n", found->machine);
    printf("the other:   0x%016" PRIx64 "\n", found->other);
    return 1;
}

/* ---- steps */

/* One step of the machine. 0: it goes on; 1: nobody is ready, or process 1 has ended. */
static int step_machine(void)
{
    uint32_t done = 0, answer = xv6_run(&machine, 1, &done);
    if (answer > XV6_INIT_ENDED) fail("the machine stops");
    steps += done;
    return answer != 0 || done == 0;
}

/* Runs until nobody is ready. 1: there is a difference, and it was printed. */
static int run(void)
{
    for (;;) {
        enum rv64_end end = RV64_CALL;
        uint64_t pc;
        uint32_t word;
        struct difference found;
        int is_done, runs = find_running();
        if (runs && process.pid != followed) follow();
        pc = hart.pc;
        word = rv64_fetch(&hart, pc);
        if (runs && !process.killed) end = rv64_step(&hart);
        is_done = step_machine();
        if (end == RV64_DONE) {
            compared++;
            if (xv6_process(&machine, followed, &process) != 0) fail("the process is gone");
            if (compare(&found)) return tell(&found, pc, word);
        } else {
            calls += runs;
            if (end == RV64_FAULT && xv6_process(&machine, followed, &process) == 0 && differ(&found, "state", 0, process.state, XV6_ENDED))
                return tell(&found, pc, word);
            followed = 0;
        }
        if (is_done) return 0;
    }
}

int main(int argc, char **argv)
{
    static uint8_t image[128 << 20];
    size_t length;
    int i, differs;
    FILE *file = argc < 2 ? NULL : fopen(argv[1], "rb");
    if (file == NULL) fail("an image that can be read");
    length = fread(image, 1, sizeof image, file);
    fclose(file);
    if (xv6_boot(image, length, FRAMES, &machine) != 0) fail("the image doesn't boot");
    differs = run();
    for (i = 2; i < argc && !differs; i++) {
        const char *key;
        for (key = argv[i]; *key != 0; key++) xv6_key(&machine, (uint8_t)*key);
        xv6_key(&machine, '\n');
        differs = run();
    }
    if (!differs) printf("lockstep: %" PRIu64 " instructions and %" PRIu64 " calls, the same\n", compared, calls);
    xv6_close(&machine);
    free(hart.memory);
    free(hart.marks);
    return differs;
}
