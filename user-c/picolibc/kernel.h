/* The kernel's calls, for what picolibc asks of a system. */
#ifndef KERNEL_H
#define KERNEL_H

#include <errno.h>

enum number {
    FORK = 1, EXIT, WAIT, PIPE, READ, KILL, EXEC, FSTAT, CHDIR, DUP, GETPID, SBRK, SLEEP, UPTIME, OPEN, WRITE, MKNOD, UNLINK,
    LINK, MKDIR, CLOSE
};

static inline long kernel(enum number number, long first, long second, long third)
{
    register long a0 __asm__("a0") = first;
    register long a1 __asm__("a1") = second;
    register long a2 __asm__("a2") = third;
    register long a7 __asm__("a7") = number;
    __asm__ volatile("ecall" : "+r"(a0) : "r"(a1), "r"(a2), "r"(a7) : "memory");
    return a0;
}

/* The kernel returns -1 for all that it refuses, and gives no reason: errno is the likeliest one of each call, a
   guess. */
static inline long told(long answer, int reason)
{
    if (answer < 0)
        errno = reason;
    return answer;
}

#define DESCRIPTORS     16
#define TICKS_A_SECOND  10      /* as xv6's */

#endif
