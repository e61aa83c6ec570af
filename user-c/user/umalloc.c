/* malloc and free: a list of free blocks in the order of their addresses. The first that is large enough is taken, and
   neighbours that are free become one. */
#include "kernel/types.h"
#include "user/user.h"

/* The head of a block. */
struct block {
    uint64 size;                /* in bytes, with this head: a multiple of 16, as the address is */
    struct block *next;
};

#define UNIT ((uint64)sizeof(struct block))
#define LEAST (4 * 4096ul)      /* that the kernel is asked for */
#define MOST  0x7ffff000ul

static struct block first;      /* of no size, before all others */

static uint64 rounded(uint64 count)
{
    return (count + UNIT - 1) / UNIT * UNIT;
}

/* Asks the kernel for `size` bytes at a multiple of 16. Others may have called sbrk, so its end may be none. */
static struct block *grow(uint64 size)
{
    uint64 end = (uint64)sbrk(0), start = rounded(end);
    if (size > MOST || sbrk(start - end + size) == SBRK_ERROR)
        return 0;
    struct block *block = (struct block *)start;
    block->size = size;
    return block;
}

/* More memory, of at least this size, among the free blocks: 0 where there is none. */
static int more(uint64 size)
{
    struct block *block = size < LEAST ? grow(LEAST) : 0;
    if (!block)
        block = grow(size);
    if (block)
        free(block + 1);
    return block != 0;
}

/* Makes one of a block and the next one where nothing is between. */
static void join(struct block *block)
{
    struct block *next = block->next;
    if (next && (char *)block + block->size == (char *)next) {
        block->size += next->size;
        block->next = next->next;
    }
}

void free(void *address)
{
    if (!address)
        return;
    struct block *block = (struct block *)address - 1, *before = &first;
    while (before->next && before->next < block)
        before = before->next;
    block->next = before->next;
    before->next = block;
    join(block);
    if (before != &first)
        join(before);
}

/* Takes `size` bytes of the first free block that has them, from its end: 0 where there is none. */
static void *take(uint64 size)
{
    for (struct block *before = &first, *block; (block = before->next); before = block) {
        if (block->size < size)
            continue;
        if (block->size > size) {
            block->size -= size;
            block = (struct block *)((char *)block + block->size);
            block->size = size;
        } else
            before->next = block->next;
        return block + 1;
    }
    return 0;
}

void *malloc(uint count)
{
    uint64 size = rounded(count) + UNIT;
    void *address = take(size);
    return !address && more(size) ? take(size) : address;
}
