/* malloc and free: free blocks in lists by their sizes. A block knows how long the one before it is, so that it
   becomes one with free neighbours at once. */
#include "kernel/types.h"
#include "user/user.h"

struct block {
    uint64 size;                /* in bytes, with this head: a multiple of 16, and 1 more while it is in use */
    uint64 before;              /* the size of the block before it: 0 of the first one of a region */
    struct block *next, **link; /* of a free one: the next of its list, and what names it there */
};

#define HEAD   16ul             /* what is kept of a block in use */
#define LEAST  32ul             /* of a block */
#define REGION (4 * 4096ul)     /* that the kernel is asked for */
#define MOST   0x7ffe0000ul

static struct block *lists[32]; /* by the sizes' logarithms */
static struct block *last;      /* the head at the end of the last region: in use, and of no bytes */

static int is_used(struct block *block)
{
    return block->size & 1;
}

static struct block *after(struct block *block)
{
    return (struct block *)((char *)block + (block->size & ~1ul));
}

static int list_of(uint64 size)
{
    int list = 0;
    while (size >>= 1)
        list++;
    return list;
}

/* Makes a block of this size free. */
static void put(struct block *block, uint64 size)
{
    struct block **list = &lists[list_of(size)];
    block->size = size;
    after(block)->before = size;
    block->next = *list;
    block->link = list;
    if (block->next)
        block->next->link = &block->next;
    *list = block;
}

static void take_out(struct block *block)
{
    *block->link = block->next;
    if (block->next)
        block->next->link = block->link;
}

void free(void *address)
{
    if (!address)
        return;
    struct block *block = (struct block *)((char *)address - HEAD), *next = after(block);
    uint64 size = block->size & ~1ul;
    if (!is_used(next)) {
        take_out(next);
        size += next->size;
    }
    struct block *previous = (struct block *)((char *)block - block->before);
    if (block->before && !is_used(previous)) {
        take_out(previous);
        size += previous->size;
        block = previous;
    }
    put(block, size);
}

/* A region of so many bytes from the kernel: after the last one, or at a multiple of 16. */
static int add_region(uint64 size)
{
    char *end = sbrk(0);
    int goes_on = last && (char *)last + HEAD == end;
    uint64 gap = goes_on ? 0 : -(uint64)end % 16;
    if (size > MOST || sbrk(gap + size) == SBRK_ERROR)
        return 0;
    struct block *block = goes_on ? last : (struct block *)(end + gap);
    if (!goes_on)
        block->before = 0;
    block->size = (goes_on ? size : size - HEAD) + 1;
    last = after(block);
    last->size = 1;
    free((char *)block + HEAD);
    return 1;
}

/* Gives a free block out, or as much of it as is asked for. */
static void *give(struct block *block, uint64 size)
{
    uint64 rest = block->size - size;
    take_out(block);
    if (rest >= LEAST) {
        block->size = size;
        after(block)->before = size;
        put(after(block), rest);
    }
    block->size += 1;
    return (char *)block + HEAD;
}

static void *search(uint64 size)
{
    for (int list = list_of(size); list < 32; list++)
        for (struct block *block = lists[list]; block; block = block->next)
            if (block->size >= size)
                return give(block, size);
    return 0;
}

void *malloc(uint count)
{
    uint64 size = (count + HEAD + 15ul) / 16 * 16;
    if (size < LEAST)
        size = LEAST;
    void *address = search(size);
    if (!address && (add_region(size < REGION ? REGION : size + HEAD) || add_region(size + HEAD)))
        address = search(size);
    return address;
}
