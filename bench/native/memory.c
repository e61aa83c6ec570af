/* The loop of programs/memory.s on the host: the compiler has to load and store the words in each round. */
enum { COUNT = 4096 };

static long words[COUNT];

int main(void)
{
    for (long left = ROUNDS; left != 0; left--) {
        for (int at = 0; at < COUNT; at += 2) {
            words[at] += left;
            words[at + 1] += words[at];
        }
        __asm__ volatile("" : : : "memory");
    }
    return 0;
}
