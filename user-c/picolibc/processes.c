/* Processes, memory and time. */
#include <signal.h>
#include <stdlib.h>
#include <sys/time.h>
#include <sys/times.h>
#include <sys/wait.h>
#include <time.h>
#include <unistd.h>
#include "kernel.h"

void _exit(int status)
{
    kernel(EXIT, status, 0, 0);
    __builtin_unreachable();
}

pid_t fork(void)
{
    return told(kernel(FORK, 0, 0, 0), EAGAIN);
}

pid_t wait(int *status)
{
    return told(kernel(WAIT, (long)status, 0, 0), ECHILD);
}

int execv(const char *path, char *const words[])
{
    return told(kernel(EXEC, (long)path, (long)words, 0), ENOEXEC);
}

pid_t getpid(void)
{
    return kernel(GETPID, 0, 0, 0);
}

/* There are no signals: whatever it is, it ends the process. */
int kill(pid_t pid, int signal)
{
    if (pid == getpid())
        _exit(128 + signal);
    return told(kernel(KILL, pid, 0, 0), ESRCH);
}

void *sbrk(ptrdiff_t bytes)
{
    return (void *)told(kernel(SBRK, bytes, 0, 0), ENOMEM);
}

/* ---- time: ticks since the machine booted */

static long ticks(void)
{
    return kernel(UPTIME, 0, 0, 0);
}

unsigned sleep(unsigned seconds)
{
    kernel(SLEEP, TICKS_A_SECOND * seconds, 0, 0);
    return 0;
}

clock_t times(struct tms *of)
{
    clock_t now = ticks() * (CLOCKS_PER_SEC / TICKS_A_SECOND);
    if (of)
        *of = (struct tms){ .tms_utime = now };
    return now;
}

int gettimeofday(struct timeval *now, void *zone)
{
    long count = ticks();
    (void)zone;
    now->tv_sec = count / TICKS_A_SECOND;
    now->tv_usec = count % TICKS_A_SECOND * (1000000 / TICKS_A_SECOND);
    return 0;
}
