/* stack.c FOLDER: how many bytes of stack each function of xv6.h takes, in a thread of its own: a row for each, as the function and the bytes,
   beyond what a thread takes that does nothing. FOLDER has the texts of the user programs; a function that fails ends it with status 1.
   cc -O2 -pthread -Iout/library bench/stack.c out/library/libxv6.a -o stack && ./stack user */
#define _GNU_SOURCE
#include "xv6.h"

#include <pthread.h>
#include <stdio.h>
#include <stdlib.h>
#include <string.h>
#include <sys/mman.h>

#define STACK ((size_t)4 << 20)
#define FRESH 0xa5
#define BLOCKS 2048u
#define FRAMES 256u
#define MANY 100000000u
#define TEXT(words) (const uint8_t *)(words), strlen(words)

static const char *const names[] = {"init", "sh", "cat", "echo", "ls", "ln", "rm", "mkdir", "kill", "forktest", "fill"};
#define PROGRAMS (sizeof names / sizeof *names)

/* A text for other assemblers. */
static const char other_text[] = ".macro more reg, by\n addi \\reg, \\reg, \\by\n.endm\n.globl _start\n_start: .rept 3\n more a0, 3\n.endr\n la a1, word\n"
                                 " li a7, 2\n ecall\n.data\nword: .quad 1\n";

/* What the calls are made on, and what they put. */
static struct xv6_machine machine, other;
static uint8_t image[BLOCKS * 1024], left[BLOCKS * 1024], contents[PROGRAMS * (XV6_PROGRAM_BYTES + 16)];
static uint8_t file[XV6_PROGRAM_BYTES], report[1 << 20], bytes[65536];
static struct xv6_entry entries[PROGRAMS];
static size_t length, count;
static char *text;
static uint32_t answer, done;
static struct xv6_assembled assembled;
static struct xv6_expanded expanded;
static struct xv6_summary summary;
static struct xv6_space space;
static struct xv6_process process;
static struct xv6_stat node;
static struct xv6_descriptor descriptor;
static struct xv6_wait waits;
static struct xv6_fault fault;
static struct xv6_walk walked;
static struct xv6_name name;
static struct xv6_reached reached;
static uint64_t digest;

/* ---- the calls */

static void nothing(void) {}
static void do_asm(void) { answer = xv6_asm(TEXT(text), file, sizeof file, &assembled); }
static void do_as(void) { answer = xv6_as(TEXT(other_text), file, sizeof file, report, sizeof report, &expanded); }
static void do_mkfs(void) { answer = xv6_mkfs(entries, PROGRAMS, contents, length, 200, image, sizeof image); }
static void do_check(void) { answer = xv6_check(image, sizeof image, &summary); }
static void do_list(void) { answer = xv6_list(image, sizeof image, TEXT("/"), bytes, sizeof bytes, &count); }
static void do_get(void) { answer = xv6_get(image, sizeof image, TEXT("/sh"), bytes, sizeof bytes, &count); }
static void do_put(void) { answer = xv6_put(image, sizeof image, TEXT("/put"), bytes, sizeof bytes); }
static void do_migrate(void) { answer = xv6_migrate(image, sizeof image) == XV6_IMAGE_MAGIC ? 0 : 1; }
static void do_boot(void) { answer = xv6_boot(image, sizeof image, FRAMES, &machine); }
static void do_run(void) { answer = xv6_run(&machine, MANY, &done); }
static void do_run_to(void) { answer = xv6_run_to(&machine, XV6_TO_CALL, 0, MANY, &reached); }
static void do_steps(void) { answer = xv6_steps(&machine, 1000); }
static void do_compute(void) { xv6_compute(&machine, 1000, NULL, 0); }
static void do_tick(void) { answer = xv6_tick(&machine); }
static void do_console(void) { count = xv6_console(&machine, bytes, sizeof bytes); }
static void do_is_idle(void) { xv6_is_idle(&machine); }
static void do_is_anyone_asleep(void) { xv6_is_anyone_asleep(&machine); }
static void do_running(void) { xv6_running(&machine); }
static void do_next_pid(void) { xv6_next_pid(&machine, 1); }
static void do_process(void) { answer = xv6_process(&machine, 2, &process); }
static void do_descriptor(void) { xv6_descriptor(&machine, 2, 0, &descriptor); }
static void do_pipe(void) { xv6_pipe(&machine, 0, bytes, sizeof bytes, &count); }
static void do_wait(void) { xv6_wait(&machine, 1, &waits); }
static void do_directory(void) { xv6_directory(&machine, 2); }
static void do_fault(void) { xv6_fault(&machine, 2, &fault); }
static void do_page(void) { xv6_page(&machine, 2, 0, bytes, 4096); }
static void do_walk(void) { answer = xv6_walk(&machine, 2, 0, &walked); }
static void do_free_frames(void) { xv6_free_frames(&machine); }
static void do_ticks(void) { xv6_ticks(&machine); }
static void do_coming_pid(void) { xv6_coming_pid(&machine); }
static void do_digest(void) { answer = xv6_digest(&machine, &digest); }
static void do_stat(void) { answer = xv6_stat(&machine, 2, &node); }
static void do_read(void) { answer = xv6_read(&machine, 2, 0, bytes, sizeof bytes, &count); }
static void do_program(void) { answer = xv6_program(&machine, 2, &name); }
static void do_could_end(void) { xv6_could_end(&machine, 1, 2); }
static void do_free_space(void) { answer = xv6_free_space(&machine, left, sizeof left, &space); }
static void do_copy(void) { answer = xv6_copy(&machine, &other); }
static void do_save(void) { answer = xv6_save(&other, left, sizeof left, &count); }
static void do_close(void) { xv6_close(&machine); }

/* Presses the keys of a line that makes the shell fork, open a pipe and write a file, and runs all of it. */
static void do_key(void)
{
    const char *key;
    for (key = "echo hi | cat > f\n"; *key != 0 && answer == 0; key++) answer = xv6_key(&machine, (uint8_t)*key);
}

struct call {
    const char *name;
    void (*made)(void);
};

#define CALL(name) {#name, do_##name}

/* In an order that each finds what it needs. */
static const struct call calls[] = {CALL(asm), CALL(as), CALL(mkfs), CALL(check), CALL(list), CALL(get), CALL(put), CALL(migrate), CALL(boot),
    CALL(run), CALL(console), CALL(process), CALL(descriptor), CALL(wait), CALL(directory), CALL(fault), CALL(page), CALL(walk), CALL(program),
    CALL(key), CALL(run_to), CALL(steps), CALL(compute), CALL(tick), CALL(run), CALL(pipe), CALL(is_idle), CALL(is_anyone_asleep),
    CALL(running), CALL(next_pid), CALL(could_end), CALL(free_frames), CALL(ticks), CALL(coming_pid), CALL(digest), CALL(stat), CALL(read),
    CALL(free_space), CALL(copy), CALL(save), CALL(close)};

/* ---- how much they take */

static void *make(void *words)
{
    const struct call *call = words;
    call->made();
    return NULL;
}

/* The bytes of a stack that a call has written, from the lowest one up. */
static size_t taken(struct call call)
{
    uint8_t *stack = mmap(NULL, STACK, PROT_READ | PROT_WRITE, MAP_PRIVATE | MAP_ANONYMOUS, -1, 0);
    pthread_attr_t how;
    pthread_t thread;
    size_t fresh = 0;
    if (stack == MAP_FAILED) exit(2);
    memset(stack, FRESH, STACK);
    if (pthread_attr_init(&how) != 0 || pthread_attr_setstack(&how, stack, STACK) != 0) exit(2);
    if (pthread_create(&thread, &how, make, &call) != 0 || pthread_join(thread, NULL) != 0) exit(2);
    while (fresh < STACK && stack[fresh] == FRESH) fresh++;
    pthread_attr_destroy(&how);
    munmap(stack, STACK);
    return STACK - fresh;
}

/* ---- the programs of the image */

static int read_text(const char *folder, const char *program)
{
    char path[512];
    FILE *from;
    long many;
    snprintf(path, sizeof path, "%s/%s.s", folder, program);
    from = fopen(path, "rb");
    if (from == NULL || fseek(from, 0, SEEK_END) != 0 || (many = ftell(from)) < 0) return 0;
    rewind(from);
    free(text);
    text = calloc((size_t)many + 1, 1);
    return text != NULL && fread(text, 1, (size_t)many, from) == (size_t)many && fclose(from) == 0;
}

static int add_program(const char *folder, size_t at)
{
    struct xv6_entry *entry = &entries[at];
    if (!read_text(folder, names[at])) return 0;
    do_asm();
    if (answer != 0) return 0;
    entry->kind = XV6_FILE;
    entry->path = (uint64_t)snprintf((char *)contents + length, 16, "/%s", names[at]);
    entry->size = assembled.bytes;
    memcpy(contents + length + entry->path, file, assembled.bytes);
    length += entry->path + entry->size;
    return 1;
}

int main(int argc, char **argv)
{
    static const struct call idle = {"nothing", nothing};
    size_t at, least;
    if (argc != 2) return fputs("stack.c: the folder of the user programs' texts\n", stderr), 2;
    for (at = 0; at < PROGRAMS; at++) {
        if (!add_program(argv[1], at)) return fprintf(stderr, "stack.c: no program %s\n", names[at]), 2;
    }
    least = taken(idle);
    for (at = 0; at < sizeof calls / sizeof *calls; at++) {
        size_t all = taken(calls[at]);
        if (answer != 0) return fprintf(stderr, "stack.c: xv6_%s: %u\n", calls[at].name, answer), 1;
        printf("xv6_%s %zu\n", calls[at].name, all < least ? 0 : all - least);
    }
    return 0;
}
