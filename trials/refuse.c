// Refuses one request of a program for memory: the one of the number REFUSE, from 1. Once it has, it writes a byte to descriptor 3.
// Loaded before glibc by LD_PRELOAD; trials/each_allocation.py compiles it.
#include <stdlib.h>
#include <unistd.h>

extern void *__libc_malloc(size_t size);
extern void *__libc_realloc(void *place, size_t size);

static int is_refused(void) {
    static unsigned long made, refused;
    if (refused == 0) {
        const char *word = getenv("REFUSE");
        refused = word == NULL ? 0 : strtoul(word, NULL, 10);
    }
    made += 1;
    return made == refused && write(3, "", 1) == 1;
}

void *malloc(size_t size) {
    return is_refused() ? NULL : __libc_malloc(size);
}

void *realloc(void *place, size_t size) {
    return is_refused() ? NULL : __libc_realloc(place, size);
}
