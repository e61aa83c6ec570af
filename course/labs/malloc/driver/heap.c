/* heap TEST NUMBER: tries malloc and free of umalloc.c, and prints "right", or what is wrong. */
#define malloc own_malloc
#define free own_free
#include "umalloc.c"

#define MOST_BLOCKS 2000

struct piece {
    uchar *address;
    uint size, mark;
};

static struct piece pieces[MOST_BLOCKS];
static uint64 state;            /* of the random numbers */
static const char *wrong;       /* the first thing that is wrong */
static uint64 seen;             /* with it */

static void refuse(const char *what, uint64 number)
{
    if (!wrong) {
        wrong = what;
        seen = number;
    }
}

static uint chance(uint below)
{
    state = state * 6364136223846793005ul + 1442695040888963407ul;
    return (state >> 33) % below;
}

static uint64 heap_size(void)
{
    return (uint64)sbrk(0);
}

/* The same byte eight times. */
static uint64 eight(uchar byte)
{
    return byte * 0x0101010101010101ul;
}

static void fill(struct piece *piece)
{
    uint at = 0;
    for (; at + 8 <= piece->size; at += 8)
        *(uint64 *)(piece->address + at) = eight(piece->mark);
    for (; at < piece->size; at++)
        piece->address[at] = piece->mark;
}

static int is_as_it_was(struct piece *piece)
{
    uint at = 0;
    for (; at + 8 <= piece->size; at += 8)
        if (*(uint64 *)(piece->address + at) != eight(piece->mark))
            return 0;
    for (; at < piece->size; at++)
        if (piece->address[at] != piece->mark)
            return 0;
    return 1;
}

/* Gets a block and fills it. */
static int get(int at, uint size)
{
    struct piece *piece = &pieces[at];
    piece->address = malloc(size);
    piece->size = size;
    piece->mark = chance(255) + 1;
    if (!piece->address)
        return 0;
    if ((uint64)piece->address % 16)
        refuse("an address is no multiple of 16", (uint64)piece->address);
    else
        fill(piece);
    return 1;
}

/* Looks whether a block's bytes are as they were, and frees it. */
static void put_back(int at)
{
    struct piece *piece = &pieces[at];
    if (piece->address && (uint64)piece->address % 16 == 0 && !is_as_it_was(piece))
        refuse("a byte was written over, of a block of this size:", piece->size);
    free(piece->address);
    piece->address = 0;
}

static void get_or_refuse(int at, uint size)
{
    if (!get(at, size))
        refuse("there is memory, and malloc gives none of this size:", size);
}

/* ---- the tests */

/* Blocks of each size up to 150, all at once. */
static void sizes(void)
{
    for (int at = 0; at < 150; at++)
        get_or_refuse(at, at + 1);
    for (int at = 0; at < 150; at++)
        put_back((at * 7) % 150);
}

/* Blocks of random sizes come and go. */
static void bytes(void)
{
    for (int time = 0; time < 350; time++) {
        int at = chance(80);
        if (pieces[at].address)
            put_back(at);
        else
            get_or_refuse(at, 1 + chance(chance(8) ? 200 : 3000));
    }
    for (int at = 0; at < 80; at++)
        put_back(at);
}

/* What is freed is used again. */
static void again(void)
{
    uint64 end = heap_size();
    for (int time = 0; time < 100; time++) {
        get_or_refuse(0, 1000 + chance(24));
        put_back(0);
    }
    if (heap_size() - end > 40000)
        refuse("100 blocks one after the other need one block's memory; the heap grew by", heap_size() - end);
}

/* Neighbours that are free become one, in whichever order they are freed. */
static void join(void)
{
    uint64 end;
    for (int at = 0; at < 100; at++)
        get_or_refuse(at, 200);
    end = heap_size();
    for (int at = 0; at < 100; at++) {
        int other = at + chance(100 - at);
        struct piece piece = pieces[at];
        pieces[at] = pieces[other];
        pieces[other] = piece;
        put_back(at);
    }
    get_or_refuse(0, 19000);
    if (heap_size() > end)
        refuse("100 free neighbours of 200 bytes are room for 19000; the heap grew by", heap_size() - end);
    put_back(0);
}

/* A large block that is free serves many small ones. */
static void split(void)
{
    uint64 end;
    get_or_refuse(0, 20000);
    end = heap_size();
    put_back(0);
    for (int at = 0; at < 200; at++)
        get_or_refuse(at, 50 + chance(14));
    if (heap_size() > end)
        refuse("20000 free bytes are room for 200 blocks of 64; the heap grew by", heap_size() - end);
    for (int at = 0; at < 200; at++)
        put_back(at);
}

/* Small blocks take little more than they have. */
static void small(void)
{
    uint64 end = heap_size();
    for (int at = 0; at < 250; at++)
        get_or_refuse(at, 16);
    if (heap_size() - end > 250 * 48 + 16384)
        refuse("250 blocks of 16 bytes need 32 or 48 each; the heap grew by", heap_size() - end);
    for (int at = 0; at < 250; at++)
        put_back(at);
}

/* Memory ends, and comes back. */
static void full(void)
{
    int count = 0, second = 0;
    while (count < MOST_BLOCKS && get(count, 6000 + chance(1000)))
        count++;
    if (count < 5 || count == MOST_BLOCKS)
        refuse("this many blocks of 6000 bytes fit:", count);
    for (int at = 0; at < count; at++)
        put_back(at);
    while (second < count && get(second, 6000))
        second++;
    if (second < count)
        refuse("all was freed, and fewer blocks fit again:", second);
    for (int at = 0; at < second; at++)
        put_back(at);
}

/* There is no memory for these. */
static void large(void)
{
    static const uint sizes[] = { 0x7fffffff, 0x80000000, 0xfffffff0, 0xffffffff, 0x7ffffff0, 0xffff0000 };
    get_or_refuse(0, 100);
    for (uint at = 0; at < sizeof sizes / sizeof sizes[0]; at++)
        if (malloc(sizes[at]))
            refuse("malloc gives a block that can't be there, of this size:", sizes[at]);
    get_or_refuse(1, 100);
    put_back(0);
    put_back(1);
}

/* free of 0 does nothing, and a block of no bytes can be freed. */
static void zero(void)
{
    free(0);
    void *none = malloc(0);
    get_or_refuse(0, 24);
    free(none);
    free(0);
    put_back(0);
    sizes();
}

/* The program itself asks the kernel for memory in between. */
static void others(void)
{
    for (int at = 0; at < 30; at++) {
        get_or_refuse(at, 500 + chance(2000));
        uchar *own = (uchar *)sbrk(1 + chance(40));
        *own = at;
        pieces[100 + at] = (struct piece){ own, 1, at };
    }
    for (int at = 0; at < 30; at++) {
        if (*pieces[100 + at].address != at)
            refuse("a byte was written over that the program got by sbrk:", at);
        put_back(at);
    }
}

/* Much is free in small pieces, and blocks come and go. */
static void speed(void)
{
    for (int at = 0; at < 700; at++)
        get_or_refuse(at, 16 + 16 * chance(4));
    for (int at = 0; at < 700; at += 2)
        put_back(at);
    for (int time = 0; time < 400; time++) {
        int at = 2 * chance(350);
        if (pieces[at].address)
            put_back(at);
        else
            get_or_refuse(at, 16 + 16 * chance(12));
    }
}

static struct {
    const char *name;
    void (*run)(void);
} tests[] = {
    { "sizes", sizes }, { "bytes", bytes }, { "again", again }, { "join", join },     { "split", split },
    { "small", small }, { "full", full },   { "large", large }, { "zero", zero },     { "others", others },
    { "speed", speed },
};

int main(int argc, char *argv[])
{
    if (argc != 3)
        return 2;
    state = atoi(argv[2]);
    for (uint at = 0; at < sizeof tests / sizeof tests[0]; at++)
        if (!strcmp(tests[at].name, argv[1]))
            tests[at].run();
    if (wrong)
        printf("%s %lu\n", wrong, seen);
    else
        printf("%s: right\n", argv[1]);
    return wrong != 0;
}
