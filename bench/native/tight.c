/* The loop of programs/tight.s on the host: its numbers stay in registers, and the compiler has to do each round. */
int main(void)
{
    unsigned long count = 0, mixed = 0;
    for (long left = ROUNDS; left != 0; left--) {
        count += 3;
        mixed ^= count;
        mixed += count << 1;
        __asm__ volatile("" : "+r"(count), "+r"(mixed));
    }
    return 0;
}
