/* The calls of the kernel. The number goes into a7, the arguments into a0, a1 and a2, and the answer comes in a0: -1 for a
   refusal. All other registers stay as they are. */
#ifndef CALLS_H
#define CALLS_H

enum number {
    FORK = 1, EXIT, WAIT, PIPE, READ, KILL, EXEC, FSTAT, CHDIR, DUP, GETPID, SBRK, SLEEP, UPTIME, OPEN, WRITE, MKNOD, UNLINK,
    LINK, MKDIR, CLOSE
};

/* The flags of open. */
enum { READ_ONLY = 0, WRITE_ONLY = 1, READ_WRITE = 2, CREATE = 0x200, TRUNCATE = 0x400 };

/* What fstat says of a file. */
struct stat {
    int device;
    unsigned number;
    short type;                 /* 1 a directory, 2 a file, 3 a device */
    short links;
    unsigned zero;
    unsigned long size;
};

static inline long call(enum number number, long first, long second, long third)
{
    register long a0 __asm__("a0") = first;
    register long a1 __asm__("a1") = second;
    register long a2 __asm__("a2") = third;
    register long a7 __asm__("a7") = number;
    __asm__ volatile("ecall" : "+r"(a0) : "r"(a1), "r"(a2), "r"(a7) : "memory");
    return a0;
}

static inline int fork(void) { return call(FORK, 0, 0, 0); }
static inline int wait(int *status) { return call(WAIT, (long)status, 0, 0); }
static inline int pipe(int ends[2]) { return call(PIPE, (long)ends, 0, 0); }
static inline int read(int file, void *to, int count) { return call(READ, file, (long)to, count); }
static inline int kill(int pid) { return call(KILL, pid, 0, 0); }
static inline int exec(const char *path, char *const argv[]) { return call(EXEC, (long)path, (long)argv, 0); }
static inline int fstat(int file, struct stat *told) { return call(FSTAT, file, (long)told, 0); }
static inline int chdir(const char *path) { return call(CHDIR, (long)path, 0, 0); }
static inline int dup(int file) { return call(DUP, file, 0, 0); }
static inline int getpid(void) { return call(GETPID, 0, 0, 0); }
static inline long sbrk(int bytes) { return call(SBRK, bytes, 0, 0); }
static inline int sleep(int ticks) { return call(SLEEP, ticks, 0, 0); }
static inline unsigned uptime(void) { return call(UPTIME, 0, 0, 0); }
static inline int open(const char *path, int flags) { return call(OPEN, (long)path, flags, 0); }
static inline int write(int file, const void *from, int count) { return call(WRITE, file, (long)from, count); }
static inline int mknod(const char *path, int major, int minor) { return call(MKNOD, (long)path, major, minor); }
static inline int unlink(const char *path) { return call(UNLINK, (long)path, 0, 0); }
static inline int link(const char *old, const char *new) { return call(LINK, (long)old, (long)new, 0); }
static inline int mkdir(const char *path) { return call(MKDIR, (long)path, 0, 0); }
static inline int close(int file) { return call(CLOSE, file, 0, 0); }

static inline void exit(int status)
{
    call(EXIT, status, 0, 0);
    __builtin_unreachable();
}

#endif
