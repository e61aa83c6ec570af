/* rv64.h: an interpreter of the instructions of RV64IM that a program uses. It knows nothing of kernels: at a call it stops. */
#ifndef RV64_H
#define RV64_H

#include <stdint.h>

#define RV64_PAGE 4096u

/* What a program may do with a page. */
enum { RV64_READ = 1, RV64_WRITE = 2, RV64_EXECUTE = 4 };

enum rv64_end {
    RV64_DONE,  /* the instruction was done */
    RV64_CALL,  /* it is an ecall: nothing was done */
    RV64_FAULT  /* it can't be done: nothing was done */
};

struct rv64 {
    uint64_t x[32], pc;
    uint8_t *memory;            /* from address 0 on */
    uint8_t *marks;             /* one for each page */
    uint64_t pages;
    uint64_t stored;            /* the address of the last instruction's store */
    unsigned stored_bytes;      /* how many bytes it has; 0: it was none */
};

/* The word at an address; 0, which is no instruction, where none can be executed. */
uint32_t rv64_fetch(const struct rv64 *hart, uint64_t address);

enum rv64_end rv64_step(struct rv64 *hart);

#endif
