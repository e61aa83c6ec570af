/* pipe, and reads and writes of its ends. */
#include "check.h"

#define ROOM 512

static int ends[2];

static void make_pipe(void)
{
    make_gate(ends);
}

void test_pipe_moves_bytes(void)
{
    make_pipe();
    WANT(write(ends[1], "abc", 3) == 3);
    WANT(write(ends[1], "de", 2) == 2);
    WANT(read(ends[0], big, 2) == 2 && memcmp(big, "ab", 2) == 0);
    WANT(read(ends[0], big, 100) == 3 && memcmp(big, "cde", 3) == 0);   /* what there is */
}

/* Nothing is left in it of a pipe that was given up. */
void test_pipe_begins_empty(void)
{
    for (int times = 0; times < 3; times++) {
        make_pipe();
        WANT(write(ends[1], big, 300) == 300);
        WANT(times == 1 || read(ends[0], big, 10 * times) == 10 * times);
        open_gate(ends);
    }
    make_pipe();
    WANT(close(ends[1]) == 0 && read(ends[0], big, 1) == 0);
}

void test_pipe_takes_lowest_descriptors(void)
{
    close(0);
    make_pipe();
    WANT(ends[0] == 0 && ends[1] == 3);
    for (int last = 3; last < 13; )
        last = dup(1);
    make_pipe();
    WANT(ends[0] == 14 && ends[1] == 15);
    WANT(close(15) == 0);
    ends[0] = ends[1] = 77;
    WANT(pipe(ends) == -1 && ends[0] == 77 && ends[1] == 77);
    WANT(dup(1) == 15);
    WANT(pipe(ends) == -1);
}

void test_pipe_refuses_address(void)
{
    WANT(pipe((int *)NOWHERE) == -1);
    WANT(pipe((int *)guard_page()) == -1);
    WANT(pipe((int *)test_pipe_refuses_address) == -1);
    WANT(pipe((int *)(page_end() - 7)) == -1);
    WANT(pipe((int *)(guard_page() - 4)) == -1);
    WANT(pipe((int *)-4L) == -1);
    make_pipe();
    WANT(ends[0] == 3 && ends[1] == 4);         /* none was taken */
}

void test_pipe_writes_descriptors(void)
{
    char *heap = sbrk(2 * PAGE);
    paint(heap, 2 * PAGE, 0x55);
    WANT(pipe((int *)(heap + 2 * PAGE - 8)) == 0);
    WANT(pipe((int *)(heap + PAGE - 3)) == 0);  /* in two pages */
    int told[2];
    memmove(told, heap + PAGE - 3, 8);
    WANT(told[0] == 5 && told[1] == 6);
    WANT(heap[PAGE - 4] == 0x55 && heap[PAGE + 5] == 0x55);
}

void test_pipe_takes_frame(void)
{
    leave_frames(1);
    WANT(pipe(ends) == 0);
    WANT(pipe((int *)big) == -1);
    WANT(close(ends[0]) == 0);
    WANT(pipe((int *)big) == -1);               /* it stays while one end is open */
    WANT(close(ends[1]) == 0);
    WANT(pipe(ends) == 0);
    WANT(close(ends[1]) == 0);
    WANT(pipe((int *)big) == -1);
    WANT(close(ends[0]) == 0);
    give_frames_back();
    int free = frames_free();
    make_pipe();
    WANT(frames_free() == free - 1);
    open_gate(ends);
    WANT(frames_free() == free);
    leave_frames(0);
    WANT(pipe(ends) == -1);
    give_frames_back();
}

void test_pipe_takes_two_open_files(void)
{
    int free = frames_free();
    leave_open_files(1);
    WANT(pipe(ends) == -1);
    int file = open("/", O_RDONLY);             /* the one is still there */
    WANT(file >= 0);
    WANT(close(file) == 0);
    give_open_files_back();
    leave_open_files(2);
    WANT(pipe(ends) == 0);
    WANT(open("/", O_RDONLY) == -1);
    open_gate(ends);
    give_open_files_back();
    WANT(frames_free() == free);
}

void test_pipe_end(void)
{
    make_pipe();
    WANT(write(ends[1], "abc", 3) == 3);
    WANT(close(ends[1]) == 0);
    WANT(read(ends[0], big, 2) == 2);           /* first what is there */
    WANT(read(ends[0], big, 2) == 1);
    WANT(read(ends[0], big, 2) == 0);
    WANT(read(ends[0], big, 2) == 0);
}

void test_pipe_end_of_last_writer(void)
{
    int gate[2];
    make_pipe();
    make_gate(gate);
    int pid = child();
    if (pid == 0) {
        wait_at(gate);
        exit(write(ends[1], "x", 1) != 1);
    }
    close(ends[1]);
    open_gate(gate);
    WANT(read(ends[0], big, 5) == 1);           /* it waited: there was a writer */
    WANT(read(ends[0], big, 5) == 0);
    wait_for(pid);
}

void test_pipe_without_reader(void)
{
    make_pipe();
    WANT(close(ends[0]) == 0);
    WANT(write(ends[1], "x", 1) == -1);
    WANT(write(ends[1], "x", 0) == 0);
}

/* The last read end closes while a writer waits for room. */
void test_pipe_loses_reader(void)
{
    make_pipe();
    int pid = child();
    if (pid == 0) {
        close(ends[0]);
        exit(write(ends[1], big, ROOM + 1) != -1);
    }
    give_turns();
    WANT(close(ends[0]) == 0);
    wait_for(pid);
}

void test_pipe_refuses_wrong_end(void)
{
    make_pipe();
    WANT(write(ends[1], "x", 1) == 1);
    WANT(read(ends[1], big, 1) == -1);
    WANT(write(ends[0], "x", 1) == -1);
    WANT(read(ends[1], big, 0) == -1);
    WANT(write(ends[0], "x", 0) == -1);
}

void test_pipe_refuses_count(void)
{
    make_pipe();
    WANT(write(ends[1], big, -1) == -1);
    WANT(read(ends[0], big, -1) == -1);
    WANT(write(ends[1], big, -2147483647 - 1) == -1);
    WANT(read(ends[0], big, 0) == 0);           /* at once, though nothing is there */
    WANT(write(ends[1], NOWHERE, 0) == 0);
    WANT(read(ends[0], NOWHERE, 0) == 0);
    WANT(call(SYS_write, ends[1], (long)"abc", 2 + (1L << 40)) == 2);
    WANT(call(SYS_read, ends[0], (long)big, 1 + (1L << 40)) == 1);
}

void test_pipe_refuses_buffer(void)
{
    make_pipe();
    WANT(write(ends[1], NOWHERE, 1) == -1);
    WANT(write(ends[1], page_end() - 3, 4) == -1);
    WANT(write(ends[1], guard_page(), 1) == -1);
    WANT(write(ends[1], "abc", 3) == 3);        /* nothing came before */
    WANT(read(ends[0], NOWHERE, 1) == -1);
    WANT(read(ends[0], page_end() - 3, 4) == -1);
    WANT(read(ends[0], (char *)test_pipe_refuses_buffer, 1) == -1);
    WANT(read(ends[0], page_end() - 4, 4) == 3);        /* nothing went before */
    WANT(memcmp(page_end() - 4, "abc", 3) == 0);
}

/* A write of all that the pipe holds doesn't wait, and one of a byte more does. */
void test_pipe_holds_512(void)
{
    make_pipe();
    WANT(write(ends[1], big, ROOM) == ROOM);
    WANT(read(ends[0], big, 2 * ROOM) == ROOM);
    int pid = child(), status;
    if (pid == 0) {
        write(ends[1], big, ROOM + 1);
        exit(0);
    }
    for (int turns = 0; turns < 20; turns++) {
        int other = fork();
        if (other == 0)
            exit(0);
        WANT(other > 0);
        WANT(wait(&status) == other);           /* the writer has not ended */
    }
    WANT(kill(pid) == 0);
    WANT(wait(&status) == pid && status == -1);
    WANT(read(ends[0], big, 2 * ROOM) == ROOM); /* what it had written stays */
}

/* A write that is longer waits again and again, and its bytes keep their order. */
void test_pipe_takes_long_write(void)
{
    make_pipe();
    for (int at = 0; at < 2000; at++)
        big[at] = at % 251;
    int pid = child();
    if (pid == 0) {
        close(ends[0]);
        exit(write(ends[1], big, 2000) != 2000);
    }
    close(ends[1]);
    paint(big, sizeof big, 0);
    int got = 0, came;
    while ((came = read(ends[0], big + got, 300)) > 0)
        got += came;
    WANT(came == 0 && got == 2000);
    for (int at = 0; at < 2000; at++)
        WANT((uchar)big[at] == at % 251);
    wait_for(pid);
}

/* A write puts what there is room for, and the rest once a read made room. */
void test_pipe_takes_write_in_parts(void)
{
    int gate[2];
    make_pipe();
    make_gate(gate);
    int begun = uptime(), pid = child();
    if (pid == 0) {
        WANT(write(ends[1], big, 600) == 600);
        wait_at(gate);
        exit(0);
    }
    give_turns();
    int first = read(ends[0], big, 100);
    give_turns();
    int second = read(ends[0], big, 600);
    WANT(uptime() != begun || (first == 100 && second == 500));
    for (int got = first + second; got < 600; )
        got += read(ends[0], big, 600);
    open_gate(gate);
    wait_for(pid);
}

/* The bytes of the pipe's ring are used round and round. */
void test_pipe_goes_round(void)
{
    char byte = 0, wanted = 0;
    make_pipe();
    for (int times = 0; times < 12; times++) {
        for (int at = 0; at < 200; at++)
            big[at] = byte++;
        WANT(write(ends[1], big, 200) == 200);
        paint(big, 200, 0);
        WANT(read(ends[0], big, 200) == 200);
        for (int at = 0; at < 200; at++)
            WANT(big[at] == wanted++);
    }
}

/* A read of one byte leaves the others to the next reader. */
void test_pipe_has_two_readers(void)
{
    make_pipe();
    int pid = child();
    if (pid == 0) {
        char byte;
        WANT(read(ends[0], &byte, 1) == 1);
        WANT(byte == 'a' || byte == 'b');
        exit(0);
    }
    give_turns();
    WANT(write(ends[1], "ab", 2) == 2);
    WANT(read(ends[0], big, 1) == 1);
    wait_for(pid);
    close(ends[1]);
    WANT(read(ends[0], big, 1) == 0);
}
