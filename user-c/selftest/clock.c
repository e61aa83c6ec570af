/* sleep, uptime, and what ticks do. These tests need a clock: where no tick came so far they are left out. */
#include "check.h"

/* Whether a sleep of n ticks takes exactly n: a tick may come before it begins or after it ends, so it
   is tried again, but none takes less. */
static int sleeps_exactly(int ticks)
{
    for (int times = 0; times < 30; times++) {
        int begun = uptime();
        WANT(sleep(ticks) == 0);
        int took = uptime() - begun;
        WANT(took >= ticks);
        if (took == ticks)
            return 1;
    }
    return 0;
}

void test_clock_sleeps_exactly(void)
{
    WANT(sleeps_exactly(1));
    WANT(sleeps_exactly(2));
    WANT(sleeps_exactly(5));
}

void test_clock_wakes_each(void)
{
    int order[2];
    char letters[3];
    make_gate(order);
    for (int ticks = 3; ticks > 0; ticks--)
        if (child() == 0) {
            char letter = '0' + ticks;
            sleep(2 * ticks);
            write(order[1], &letter, 1);
            exit(0);
        }
    for (int got = 0; got < 3; )
        got += read(order[0], letters + got, 3 - got);
    WANT(memcmp(letters, "123", 3) == 0);
    while (wait(0) > 0)
        ;
}

void test_clock_takes_low_bits(void)
{
    int begun = uptime();
    WANT(call(SYS_sleep, (1L << 40) + 1, 0, 0) == 0);
    WANT(uptime() - begun >= 1);
}

void test_clock_kills_sleeper(void)
{
    int begun = uptime(), pid = child(), status;
    if (pid == 0) {
        sleep(1000000);
        exit(0);
    }
    sleep(1);
    WANT(kill(pid) == 0);
    WANT(wait(&status) == pid && status == -1);
    WANT(uptime() - begun < 1000);
}

/* A process that never waits doesn't keep the others from running, and keeps its registers over ticks. */
void test_clock_takes_turns(void)
{
    int pid = child(), status;
    if (pid == 0) {
        __asm__ volatile(
            "li s2, 2\n li s3, 3\n li t3, 5\n li t4, 7\n"
            "1: mul t5, s2, s3\n mul t6, t3, t4\n li t0, 6\n bne t5, t0, 2f\n li t0, 35\n bne t6, t0, 2f\n j 1b\n 2:"
            ::: "s2", "s3", "t0", "t3", "t4", "t5", "t6");
        exit(1);
    }
    for (int times = 0; times < 3; times++)
        sleep(1);
    WANT(kill(pid) == 0);
    WANT(wait(&status) == pid && status == -1);
}

void test_sleep_of_nothing(void)
{
    int begun = uptime(), calm = 0;
    for (int times = 0; times < 30 && !calm; times++, begun = uptime()) {
        WANT(sleep(0) == 0 && sleep(-1) == 0 && sleep(-2147483647 - 1) == 0);
        calm = (uint)uptime() - begun <= 1;
    }
    WANT(calm);
}

void test_uptime_rises(void)
{
    int last = uptime();
    for (int times = 0; times < 50; times++) {
        int now = uptime();
        WANT(now >= last);
        last = now;
    }
}
