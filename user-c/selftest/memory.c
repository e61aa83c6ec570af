/* sbrk, what may be touched, and what a fault does. */
#include "check.h"

/* ---- sbrk */

void test_sbrk_answers_old_end(void)
{
    char *end = sbrk(0);
    WANT(sbrk(100) == end && sbrk(0) == end + 100);
    WANT(sbrk(-100) == end + 100 && sbrk(0) == end);
    WANT(sbrk(3 * PAGE + 1) == end && sbrk(-3 * PAGE) == end + 3 * PAGE + 1 && sbrk(0) == end + 1);
    WANT((char *)call(SYS_sbrk, (1L << 40) + 2, 0, 0) == end + 1 && sbrk(0) == end + 3);
}

void test_sbrk_gives_zeros(void)
{
    char *heap = sbrk(3 * PAGE);
    WANT(is_painted(heap, 3 * PAGE, 0));
    paint(heap, 3 * PAGE, 0x55);
    sbrk(-2 * PAGE);
    sbrk(2 * PAGE);
    WANT(is_painted(heap, PAGE, 0x55));         /* a page that stays keeps its bytes */
    WANT(is_painted(heap + PAGE, 2 * PAGE, 0));
}

/* Pages that a process had come to another one as zeros. */
static void spoil_pages(void)
{
    char *heap = sbrk(8 * PAGE);
    paint(heap, 8 * PAGE, 0x77);
}

void test_sbrk_gives_zeros_of_used_frames(void)
{
    WANT(status_of(spoil_pages) == 0);
    WANT(is_painted(sbrk(8 * PAGE), 8 * PAGE, 0));
}

void test_sbrk_keeps_bytes_in_page(void)
{
    char *heap = sbrk(PAGE);
    heap[100] = 7;
    heap[3000] = 8;
    sbrk(-2000);
    WANT(heap[100] == 7);
    sbrk(2000);
    WANT(heap[100] == 7 && heap[3000] == 8);
}

void test_sbrk_refuses(void)
{
    char *end = sbrk(0);
    WANT(sbrk(-(int)(uint64)end - 1) == SBRK_ERROR);
    WANT(sbrk(-2147483647 - 1) == SBRK_ERROR);
    WANT(sbrk(2147483647) == SBRK_ERROR);
    WANT(sbrk(0) == end);
}

static void give_all(void)
{
    sbrk(-(int)(uint64)sbrk(0));
}

static void touch_given(void)
{
    char *heap = sbrk(PAGE);
    sbrk(-PAGE);
    *(volatile char *)heap = 1;
}

static void touch_past_end(void)
{
    char *heap = sbrk(PAGE);
    *(volatile char *)(heap + PAGE) = 1;
}

/* The page of the last byte is there whole. */
static void touch_last_page(void)
{
    char *heap = sbrk(1);
    heap[PAGE - 1] = 1;
    exit(5);
}

void test_sbrk_ends_memory(void)
{
    WANT(status_of(touch_given) == -1);
    WANT(status_of(touch_past_end) == -1);
    WANT(status_of(touch_last_page) == 5);
    WANT(status_of(give_all) == -1);            /* no instruction is left */
}

void test_sbrk_takes_frames(void)
{
    int own = pages();
    leave_frames(3);
    WANT(sbrk(4 * PAGE) == SBRK_ERROR);
    WANT(pages() == own);
    WANT(sbrk(2 * PAGE) != SBRK_ERROR && sbrk(PAGE) != SBRK_ERROR);
    WANT(sbrk(1) == SBRK_ERROR);
    sbrk(-PAGE + 1);
    WANT(sbrk(1) != SBRK_ERROR);                /* a byte stayed, and so its page */
    WANT(sbrk(PAGE - 2) != SBRK_ERROR && sbrk(PAGE) == SBRK_ERROR);
    sbrk(-3 * PAGE);
    WANT(pages() == own);
    give_frames_back();
}

/* The page that is the first of 512 takes a frame more, for its table; it comes back. */
void test_sbrk_takes_frames_of_tables(void)
{
    int grown = 512 - pages();
    if (frames_free() < grown + 600)
        return;                 /* where memory is that large */
    WANT(sbrk(PAGE * grown) != SBRK_ERROR);
    leave_frames(1);
    WANT(sbrk(PAGE) == SBRK_ERROR);
    give_frames_back();
    leave_frames(2);
    WANT(sbrk(PAGE) != SBRK_ERROR);
    WANT(fork() == -1);
    sbrk(-PAGE);
    WANT(sbrk(PAGE) != SBRK_ERROR);
    give_frames_back();
    int free = frames_free();
    sbrk(-PAGE);
    WANT(frames_free() == free + 2);
}

/* ---- what may be touched */

static volatile int written = 1;
static void load_nowhere(void)      { (void)*(volatile int *)NOWHERE; }
static void store_nowhere(void)     { *(volatile int *)NOWHERE = 1; }
static void store_code(void)        { *(volatile int *)(void *)store_code = 1; }
static void load_guard(void)        { (void)*(volatile char *)guard_page(); }
static void store_guard(void)       { *(volatile char *)(guard_page() + PAGE - 1) = 1; }
static void load_high(void)         { (void)*(volatile char *)-1L; }
static void load_alias(void)        { (void)*(volatile char *)((1L << 39) + (long)&written); }

static void run_at(const void *code)
{
    __asm__ volatile("jalr %0" ::"r"(code) : "ra", "memory");
}

static volatile int returning[] = { 0x00008067 };       /* ret */

static void run_nowhere(void)       { run_at(NOWHERE); }
static void run_guard(void)         { run_at(guard_page()); }
static void run_data(void)          { run_at((void *)returning); }

static void run_heap(void)
{
    char *heap = sbrk(PAGE);
    *(int *)heap = returning[0];
    run_at(heap);
}

static void run_stack(void)
{
    volatile int code = returning[0];
    run_at((void *)&code);
}

void test_faults_of_pages(void)
{
    static void (*const bodies[])(void) = {
        load_nowhere, store_nowhere, store_code, load_guard, store_guard, load_high, load_alias, run_nowhere, run_guard, run_data,
        run_heap, run_stack,
    };
    for (uint at = 0; at < sizeof bodies / sizeof *bodies; at++)
        WANT(status_of(bodies[at]) == -1);
    WANT(written == 1);
}

static void load_code(void)
{
    (void)*(volatile int *)(void *)load_code;
}

void test_code_can_be_read(void)
{
    WANT(status_of(load_code) == 0);
}

/* An access at this address, which is no multiple of its size. */
#define ODD(name, instruction) \
    static void name(void) { __asm__ volatile(instruction ::"r"(big + 1) : "t0", "memory"); }

ODD(odd_lh, "lh t0, 0(%0)")
ODD(odd_lhu, "lhu t0, 0(%0)")
ODD(odd_lw, "lw t0, 1(%0)")
ODD(odd_lwu, "lwu t0, 1(%0)")
ODD(odd_ld, "ld t0, 3(%0)")
ODD(odd_sh, "sh t0, 0(%0)")
ODD(odd_sw, "sw t0, 1(%0)")
ODD(odd_sd, "sd t0, 3(%0)")
ODD(odd_jump, "la t0, 1f\n addi t0, t0, 2\n jr t0\n .balign 4\n 1: nop\n nop")

void test_faults_of_addresses(void)
{
    static void (*const bodies[])(void) = { odd_lh, odd_lhu, odd_lw, odd_lwu, odd_ld, odd_sh, odd_sw, odd_sd, odd_jump };
    for (uint at = 0; at < sizeof bodies / sizeof *bodies; at++)
        WANT(status_of(bodies[at]) == -1);
}

void test_faults_end_one_process(void)
{
    int free = frames_free();
    fill("f", "abc");
    for (int times = 0; times < 3; times++)
        WANT(status_of(store_nowhere) == -1);
    WANT(is_text("f", "abc") && unlink("f") == 0);
    WANT(frames_free() == free);
}

/* ---- malloc */

void test_malloc_gives_apart(void)
{
    char *parts[40];
    for (int at = 0; at < 40; at++) {
        WANT((parts[at] = malloc(at * 24 + 8)) != 0 && (uint64)parts[at] % 16 == 0);
        paint(parts[at], at * 24 + 8, at);
    }
    for (int at = 0; at < 40; at++) {
        WANT(is_painted(parts[at], at * 24 + 8, at));
        free(parts[at]);
    }
    WANT(malloc(0x7fffffff) == 0 && malloc(-1) == 0);
    char *end = sbrk(0);
    WANT(malloc(20000) != 0);
    WANT(sbrk(0) == end);                       /* what was freed is one block again */
}
