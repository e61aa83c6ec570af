/* fork, exit, wait, kill, getpid, and whose turn it is. */
#include "check.h"

/* ---- fork */

void test_fork_answers(void)
{
    int told[2], in_child = 0;
    make_gate(told);
    int pid = fork();
    if (pid == 0) {
        in_child = getpid();
        write(told[1], &in_child, sizeof in_child);
        exit(0);
    }
    WANT(pid > 0 && pid != getpid());
    WANT(read(told[0], &in_child, sizeof in_child) == sizeof in_child);
    WANT(in_child == pid);
    wait_for(pid);
}

static void nothing(void)
{
}

void test_fork_counts_pids(void)
{
    int first = zombie(nothing), second = zombie(nothing);
    WANT(second == first + 1);
    WANT(wait(0) > 0 && wait(0) > 0);
    WANT(zombie(nothing) == second + 1);        /* none is used again */
}

void test_fork_refused_takes_no_pid(void)
{
    int before = zombie(nothing);
    WANT(wait(0) == before);
    leave_frames(process_frames(pages()) - 1);
    WANT(fork() == -1);
    WANT(fork() == -1);
    give_frames_back();
    WANT(zombie(nothing) == before + 2);        /* the one between had the frames */
}

/* Writes of parent and child, by instructions and by the kernel, into memory that both have. */
void test_fork_copies_memory(void)
{
    static int data = 1, told[2] = { 1, 1 };
    int stack = 1, gate[2], status;
    char *heap = sbrk(PAGE);
    heap[7] = 1;
    make_gate(gate);
    int pid = child();
    if (pid == 0) {
        wait_at(gate);
        WANT(data == 1 && stack == 1 && heap[7] == 1 && told[0] == 1 && told[1] == 1);
        data = stack = heap[7] = 2;
        WANT(pipe(told) == 0 && told[0] != 1);
        exit(data + stack + heap[7]);
    }
    data = stack = heap[7] = 3;
    WANT(pipe(told) == 0 && told[0] != 1);
    int reader = told[0];
    open_gate(gate);
    WANT(wait(&status) == pid && status == 6);
    WANT(data == 3 && stack == 3 && heap[7] == 3 && told[0] == reader);
}

/* Bytes that the kernel puts into a page that both have: first for the child, then for the parent. */
void test_fork_copies_for_kernel(void)
{
    int gate[2];
    char *heap = sbrk(PAGE);
    paint(heap, PAGE, 'x');
    fill("f", "abcdef");
    int file = open("f", O_RDONLY), pid = child();
    if (pid == 0) {
        WANT(read(file, heap + 5, 3) == 3);
        WANT(memcmp(heap, "xxxxxabcxxx", 11) == 0);
        exit(0);
    }
    wait_for(pid);
    WANT(is_painted(heap, PAGE, 'x'));
    make_gate(gate);
    pid = child();
    if (pid == 0) {
        wait_at(gate);
        exit(!is_painted(heap, PAGE, 'x'));
    }
    WANT(read(file, heap + 5, 3) == 3);
    WANT(memcmp(heap, "xxxxxdefxxx", 11) == 0);
    open_gate(gate);
    wait_for(pid);
    WANT(unlink("f") == 0);
}

/* Three processes have one page, and each writes it. */
void test_fork_copies_for_each(void)
{
    int gate[2], status, all = 0;
    char *heap = sbrk(PAGE);
    heap[9] = 1;
    make_gate(gate);
    for (int which = 2; which <= 3; which++)
        if (child() == 0) {
            heap[9] += which;
            wait_at(gate);
            exit(heap[9]);
        }
    give_turns();
    heap[9] += 10;
    open_gate(gate);
    while (wait(&status) > 0)
        all += status;
    WANT(all == 3 + 4 && heap[9] == 11);
}

void test_fork_shares_open_files(void)
{
    char byte;
    fill("f", "abc");
    int file = open("f", O_RDONLY), pid = child();
    if (pid == 0) {
        WANT(read(file, &byte, 1) == 1 && byte == 'a');
        exit(close(file));
    }
    wait_for(pid);
    WANT(read(file, &byte, 1) == 1 && byte == 'b');
    WANT(unlink("f") == 0);
}

void test_fork_copies_directory(void)
{
    WANT(mkdir("d") == 0);
    int pid = child();
    if (pid == 0) {
        WANT(chdir("d") == 0);
        fill("f", "x");
        exit(0);
    }
    wait_for(pid);
    WANT(size_of("f") == -1);
    WANT(unlink("d/f") == 0 && unlink("d") == 0);
}

/* The child holds the directory that its parent leaves. */
void test_fork_holds_directory(void)
{
    int gate[2], count = inodes_free();
    make_gate(gate);
    WANT(mkdir("d") == 0 && chdir("d") == 0);
    int number = number_of("."), pid = child();
    if (pid == 0) {
        wait_at(gate);
        WANT(number_of("") == number && links_of("") == 0);
        exit(0);
    }
    WANT(chdir("..") == 0 && unlink("d") == 0);
    WANT(inodes_free() == count - 1);
    open_gate(gate);
    wait_for(pid);
    WANT(inodes_free() == count);
}

/* Children are made until that is refused; all wait. The kernel has 64 slots, and process 1, its shell, this
   program and this test are there. */
void test_fork_fills_places(void)
{
    int gate[2], count = 0, pid, room = NPROC - 4;
    make_gate(gate);
    int most = frames_free() / process_frames(pages());
    while ((pid = fork()) > 0)
        count++;
    if (pid == 0) {
        wait_at(gate);
        exit(0);
    }
    WANT(pid == -1);
    WANT(count == (most < room ? most : room));
    WANT(fork() == -1);
    open_gate(gate);
    for (; count > 0; count--)
        WANT(wait(0) > 0);
    WANT(wait(0) == -1);
}

void test_fork_takes_frames(void)
{
    int need = process_frames(pages());
    leave_frames(need - 1);
    WANT(fork() == -1);
    give_frames_back();
    leave_frames(need);
    int pid = fork();
    if (pid == 0)
        exit(0);
    WANT(pid > 0 && fork() == -1);
    WANT(wait(0) == pid);
    give_frames_back();
}

/* A refused fork shares no open file: the pipe has one write end. */
void test_fork_refused_shares_nothing(void)
{
    int ends[2];
    char byte;
    leave_frames(process_frames(pages()));
    make_gate(ends);            /* takes a frame of these */
    WANT(fork() == -1);
    WANT(close(ends[1]) == 0);
    WANT(read(ends[0], &byte, 1) == 0);
    give_frames_back();
}

/* More pages: with those of their tables. */
void test_fork_takes_frames_of_tables(void)
{
    int grown = 512 - pages();
    if (frames_free() < 3 * 540)
        return;                 /* where memory is that large */
    WANT(sbrk(PAGE * grown) != SBRK_ERROR);
    test_fork_takes_frames();
    WANT(sbrk(PAGE) != SBRK_ERROR);
    test_fork_takes_frames();
}

/* ---- exit */

static void exit_7(void)          { exit(7); }
static void exit_minus_5(void)    { exit(-5); }
static void exit_large(void)      { exit(0x12345678); }
static void exit_least(void)      { exit(-2147483647 - 1); }
static void exit_high(void)       { call(SYS_exit, (1L << 40) + 9, 0, 0); }

void test_exit_status(void)
{
    WANT(status_of(exit_7) == 7);
    WANT(status_of(exit_minus_5) == -5);
    WANT(status_of(exit_large) == 0x12345678);
    WANT(status_of(exit_least) == -2147483647 - 1);
    WANT(status_of(exit_high) == 9);            /* the low 32 bits */
}

void test_exit_closes(void)
{
    int gate[2];
    char byte;
    make_gate(gate);
    int pid = child();
    if (pid == 0) {
        while (dup(gate[1]) >= 0)
            ;
        exit(0);
    }
    close(gate[1]);
    WANT(read(gate[0], &byte, 1) == 0);         /* before it is waited for */
    wait_for(pid);
}

void test_exit_leaves_directory(void)
{
    int count = inodes_free(), gate[2];
    WANT(mkdir("d") == 0);
    make_gate(gate);
    int pid = child();
    if (pid == 0) {
        WANT(chdir("d") == 0);
        WANT(unlink("../d") == 0);
        exit(0);
    }
    close(gate[1]);
    WANT(read(gate[0], gate, 1) == 0);
    WANT(inodes_free() == count);               /* the zombie has none */
    wait_for(pid);
}

/* A zombie has its frames until it is waited for. */
void test_exit_keeps_frames(void)
{
    int free = frames_free();
    int pid = zombie(nothing);
    WANT(frames_free() == free - process_frames(pages()));
    WANT(wait(0) == pid);
    WANT(frames_free() == free);
}

static void leave_orphan(void)
{
    if (child() == 0)
        give_turns();
}

static void leave_zombie(void)
{
    zombie(nothing);
}

/* Process 1 waits for those whose parents have ended, whether they are zombies then or later. */
void test_exit_gives_children_away(void)
{
    int free = frames_free();
    for (int times = 0; times < NPROC; times++) {
        WANT(status_of(times % 2 ? leave_orphan : leave_zombie) == 0);
        WANT(wait(0) == -1);
        for (int turns = 0; turns < 3; turns++)
            give_turns();
    }
    for (int turns = 0; turns < 100 && frames_free() != free; turns++)
        give_turns();
    WANT(frames_free() == free);
}

/* ---- wait */

void test_wait_without_child(void)
{
    int status = 77;
    WANT(wait(0) == -1);
    WANT(wait(&status) == -1 && status == 77);
    int pid = zombie(nothing);
    WANT(wait(0) == pid);
    WANT(wait(0) == -1);
}

void test_wait_refuses_address(void)
{
    int pid = zombie(exit_7), status;
    WANT(wait((int *)NOWHERE) == -1);
    WANT(wait((int *)guard_page()) == -1);
    WANT(wait((int *)test_wait_refuses_address) == -1); /* instructions can't be written */
    WANT(wait((int *)(page_end() - 3)) == -1);
    WANT(wait((int *)-1L) == -1);
    WANT(wait(&status) == pid && status == 7);
}

/* The same where no child has ended yet: the call doesn't wait. */
void test_wait_refuses_at_once(void)
{
    int gate[2];
    make_gate(gate);
    int pid = child();
    if (pid == 0) {
        wait_at(gate);
        exit(0);
    }
    WANT(wait((int *)NOWHERE) == -1);
    open_gate(gate);
    wait_for(pid);
}

/* Four bytes are written, wherever they lie. */
void test_wait_writes_status(void)
{
    char *heap = sbrk(2 * PAGE), *end = heap + 2 * PAGE;
    int status;
    paint(heap, 2 * PAGE, 0x55);
    int places[] = { 2 * PAGE - 4, PAGE - 1, PAGE - 2, 5 };
    for (int at = 0; at < 4; at++) {
        char *place = heap + places[at];
        int pid = zombie(exit_large);
        WANT(wait((int *)place) == pid);
        memmove(&status, place, 4);
        WANT(status == 0x12345678);
        WANT(place[-1] == 0x55 && (place + 4 == end || place[4] == 0x55));
        memset(place, 0x55, 4);
    }
}

/* The first slot with a zombie, and not the first zombie. */
void test_wait_takes_first_place(void)
{
    int gate[2], ended[2], status;
    char byte;
    make_gate(gate);
    make_gate(ended);
    int first = child();
    if (first == 0) {
        wait_at(gate);
        exit(1);
    }
    close(ended[1]);
    int second = zombie(exit_7);
    open_gate(gate);
    WANT(read(ended[0], &byte, 1) == 0);
    WANT(wait(&status) == first && status == 1);
    WANT(wait(&status) == second && status == 7);
}

void test_wait_waits(void)
{
    static int order[2];
    char byte = 'c';
    make_gate(order);
    int pid = child();
    if (pid == 0) {
        give_turns();
        write(order[1], &byte, 1);
        exit(3);
    }
    int status;
    WANT(wait(&status) == pid && status == 3);
    close(order[1]);
    WANT(read(order[0], &byte, 1) == 1 && byte == 'c');
}

static void have_grandchild(void)
{
    int pid = child();
    if (pid == 0)
        exit(5);
    exit(wait(0) == pid ? 0 : 1);
}

void test_wait_is_for_children(void)
{
    int gate[2], pid = child();
    if (pid == 0)
        have_grandchild();
    wait_for(pid);
    make_gate(gate);
    pid = child();
    if (pid == 0) {
        WANT(wait(0) == -1);    /* its parent's child is none of its own */
        exit(0);
    }
    wait_for(pid);
}

/* ---- kill */

void test_kill_refuses(void)
{
    int pid = zombie(nothing);
    WANT(kill(0) == -1);
    WANT(kill(-1) == -1);
    WANT(kill(-pid) == -1);
    WANT(kill(pid + 1) == -1);                  /* there is none yet */
    WANT(kill(LAST_PID) == -1);
    WANT(wait(0) == pid);
    WANT(kill(pid) == -1);                      /* there is none any more */
}

void test_kill_takes_low_bits(void)
{
    int pid = zombie(nothing);
    WANT(call(SYS_kill, pid + (1L << 40), 0, 0) == 0);
    WANT(wait(0) == pid);
}

static void kill_self(void)
{
    kill(getpid());
    exit(0);
}

static void sleep_long(void)
{
    sleep(1000000);
}

static void read_pipe(void)
{
    int ends[2];
    pipe(ends);
    read(ends[0], ends, 1);
}

static void write_pipe(void)
{
    int ends[2];
    pipe(ends);
    write(ends[1], big, 513);
}

/* The status of a child that is killed while it does this, which doesn't end by itself. */
static int killed_in(void (*body)(void))
{
    int pid = child(), status;
    if (pid == 0) {
        body();
        exit(0);
    }
    give_turns();
    WANT(kill(pid) == 0);
    WANT(wait(&status) == pid);
    return status;
}

void test_kill_ends(void)
{
    WANT(status_of(kill_self) == -1);
    WANT(killed_in(read_pipe) == -1);
    WANT(killed_in(write_pipe) == -1);
    WANT(killed_in(sleep_long) == -1);
}

void test_kill_ends_waiting(void)
{
    int gate[2], status;
    make_gate(gate);
    int pid = child();
    if (pid == 0) {
        int grandchild = child();
        if (grandchild == 0) {
            wait_at(gate);
            exit(0);
        }
        wait(0);
        exit(0);
    }
    give_turns();
    WANT(kill(pid) == 0);
    WANT(wait(&status) == pid && status == -1);
    open_gate(gate);
}

void test_kill_marks_zombie(void)
{
    int pid = zombie(exit_7), status;
    WANT(kill(pid) == 0);
    WANT(wait(&status) == pid && status == 7);
}

void test_kill_closes(void)
{
    int ends[2], gate[2];
    char byte;
    make_gate(ends);
    make_gate(gate);
    int pid = child();
    if (pid == 0) {
        wait_at(gate);
        exit(0);
    }
    close(ends[1]);
    WANT(kill(pid) == 0);
    WANT(read(ends[0], &byte, 1) == 0);
    WANT(wait(0) == pid);
}

/* ---- turns */

static int begin[2], order[2];

/* A child that writes a letter once there is a byte for it. */
static int start_letter(char letter)
{
    char byte;
    int pid = child();
    if (pid == 0) {
        read(begin[0], &byte, 1);
        write(order[1], &letter, 1);
        exit(0);
    }
    return pid;
}

static void prepare(void)
{
    make_gate(begin);
    make_gate(order);
}

/* Collects `count` letters, in the order of turns. */
static void collect(char *letters, int count)
{
    for (int got = 0; got < count; )
        got += read(order[0], letters + got, count - got);
    letters[count] = 0;
    open_gate(begin);
    open_gate(order);
    while (wait(0) > 0)
        ;
}

static void go_round(char *letters)
{
    prepare();
    for (char letter = 'a'; letter <= 'c'; letter++)
        start_letter(letter);
    give_turns();
    write(begin[1], big, 3);
    collect(letters, 3);
}

/* b has bytes for a and for c: the next turn is that of the slot after its own. */
static void go_on_after_last(char *letters)
{
    int second[2];
    char byte;
    prepare();
    make_gate(second);
    start_letter('a');
    if (child() == 0) {
        read(second[0], &byte, 1);
        write(begin[1], big, 2);
        write(order[1], "b", 1);
        exit(0);
    }
    start_letter('c');
    give_turns();
    write(second[1], big, 1);
    open_gate(second);
    collect(letters, 3);
}

/* d has the slot that b had. */
static void go_by_places(char *letters)
{
    int status;
    prepare();
    start_letter('a');
    int pid = start_letter('b');
    start_letter('c');
    kill(pid);
    WANT(wait(&status) == pid);
    start_letter('d');
    give_turns();
    write(begin[1], big, 3);
    collect(letters, 3);
}

/* Three writers wait at a full pipe, and one read makes room for all. */
static void write_in_turn(char *letters)
{
    prepare();
    write(order[1], big, 512);
    for (char letter = 'a'; letter <= 'c'; letter++)
        start_letter(letter);
    write(begin[1], big, 3);
    give_turns();
    WANT(read(order[0], big, 512) == 512);
    collect(letters, 3);
}

/* What came of it where no tick fell into it, which changes turns; where one always does, nothing is said. */
static void want_order(void (*body)(char *letters), const char *wanted)
{
    char letters[8];
    for (int times = 0; times < 8; times++) {
        int begun = uptime();
        body(letters);
        if (uptime() == begun) {
            WANT(strcmp(letters, wanted) == 0);
            return;
        }
    }
}

void test_turns_go_round(void)          { want_order(go_round, "abc"); }
void test_turns_go_on_after_last(void)  { want_order(go_on_after_last, "bca"); }
void test_turns_go_by_places(void)      { want_order(go_by_places, "adc"); }
void test_turns_of_woken_writers(void)  { want_order(write_in_turn, "abc"); }

/* ---- numbers of calls */

void test_calls_by_number(void)
{
    int pid = getpid();
    WANT(call(SYS_getpid + (1L << 40), 0, 0, 0) == pid);        /* the low 32 bits */
    WANT(call(0, 1, 2, 3) == -1);
    WANT(call(22, 1, 2, 3) == -1);
    WANT(call(256 + SYS_getpid, 0, 0, 0) == -1);
    WANT(call(-1, 1, 2, 3) == -1);
    WANT(call(1L << 31, 1, 2, 3) == -1);
    WANT(getpid() == pid);
}
