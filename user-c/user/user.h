/* What a program may call. */
#ifndef USER_USER_H
#define USER_USER_H

#include "kernel/types.h"

struct stat;

/* Calls of the kernel. Where nothing else is said they answer 0, and -1 for a refusal. */
int fork(void);                                 /* the child's pid; 0 in the child */
int exit(int status) __attribute__((noreturn));
int wait(int *status);                          /* the pid of a child that ended; status may be 0 */
int pipe(int ends[2]);                          /* to read, to write */
int read(int file, void *to, int count);        /* how many bytes came: 0 at the end */
int write(int file, const void *from, int count);       /* count */
int close(int file);
int kill(int pid);
int exec(const char *path, char *words[]);      /* returns only where it is refused; a 0 follows the last word */
int open(const char *path, int flags);          /* a descriptor */
int mknod(const char *path, short major, short minor);
int unlink(const char *path);
int fstat(int file, struct stat *told);
int link(const char *old, const char *new);
int mkdir(const char *path);
int chdir(const char *path);
int dup(int file);                              /* another descriptor */
int getpid(void);
char *sbrk(int bytes);                          /* the old end of memory, or SBRK_ERROR */
int pause(int ticks);
int sleep(int ticks);                           /* pause, by its old name */
int uptime(void);                               /* ticks so far */

#define SBRK_ERROR ((char *)-1)

/* ulib.c */
int stat(const char *path, struct stat *told);
char *strcpy(char *to, const char *from);
int strcmp(const char *left, const char *right);
uint strlen(const char *text);
char *strchr(const char *text, char wanted);    /* 0 where there is none */
void *memset(void *to, int byte, uint count);
void *memmove(void *to, const void *from, int count);
void *memcpy(void *to, const void *from, uint count);
int memcmp(const void *left, const void *right, uint count);
int atoi(const char *text);                     /* of the digits that it begins with */
char *gets(char *line, int room);               /* a line of standard input with its end; "" where nothing comes */

/* printf.c: %d %u %x with l or ll before them, %p %s %c %% */
void printf(const char *form, ...) __attribute__((format(printf, 1, 2)));
void fprintf(int file, const char *form, ...) __attribute__((format(printf, 2, 3)));

/* umalloc.c */
void *malloc(uint count);                       /* 0 where there is no memory */
void free(void *address);

#endif
