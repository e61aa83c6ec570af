/* digest FILE: SHA-256, numbers of 64 and 128 bits, eight queens, dates. */
#include <assert.h>
#include <stdint.h>
#include <stdio.h>
#include <string.h>
#include <time.h>

static uint32_t constants[64], state[8];

/* The first 32 bits after the point of a square or cube root. */
static uint32_t root_bits(int number, int is_cube)
{
    double root = 1;
    for (int times = 0; times < 100; times++)
        root = is_cube ? root - (root * root * root - number) / (3 * root * root) : (root + number / root) / 2;
    return (uint32_t)((root - (int)root) * 4294967296.0);
}

static int is_prime(int number)
{
    for (int divisor = 2; divisor * divisor <= number; divisor++)
        if (number % divisor == 0)
            return 0;
    return 1;
}

static void begin(void)
{
    for (int number = 2, found = 0; found < 64; number++) {
        if (!is_prime(number))
            continue;
        constants[found] = root_bits(number, 1);
        if (found < 8)
            state[found] = root_bits(number, 0);
        found++;
    }
}

static uint32_t rotated(uint32_t word, int bits)
{
    return word >> bits | word << (32 - bits);
}

static void spread(uint32_t words[64], const uint8_t *block)
{
    for (int at = 0; at < 16; at++)
        words[at] = (uint32_t)block[4 * at] << 24 | block[4 * at + 1] << 16 | block[4 * at + 2] << 8 | block[4 * at + 3];
    for (int at = 16; at < 64; at++) {
        uint32_t early = words[at - 15], late = words[at - 2];
        words[at] = words[at - 16] + (rotated(early, 7) ^ rotated(early, 18) ^ early >> 3)
            + words[at - 7] + (rotated(late, 17) ^ rotated(late, 19) ^ late >> 10);
    }
}

static void digest(const uint8_t *block)
{
    uint32_t words[64], s[8];
    spread(words, block);
    memcpy(s, state, sizeof s);
    for (int at = 0; at < 64; at++) {
        uint32_t one = s[7] + (rotated(s[4], 6) ^ rotated(s[4], 11) ^ rotated(s[4], 25))
            + ((s[4] & s[5]) ^ (~s[4] & s[6])) + constants[at] + words[at];
        uint32_t other = (rotated(s[0], 2) ^ rotated(s[0], 13) ^ rotated(s[0], 22))
            + ((s[0] & s[1]) ^ (s[0] & s[2]) ^ (s[1] & s[2]));
        memmove(s + 1, s, 7 * sizeof *s);
        s[4] += one;
        s[0] = one + other;
    }
    for (int at = 0; at < 8; at++)
        state[at] += s[at];
}

static void digest_file(FILE *file)
{
    uint8_t block[64];
    uint64_t length = 0;
    size_t came;
    while ((came = fread(block, 1, 64, file)) == 64) {
        digest(block);
        length += 64;
    }
    length += came;
    memset(block + came, 0, 64 - came);
    block[came] = 0x80;
    if (came > 55) {
        digest(block);
        memset(block, 0, 64);
    }
    for (int at = 0; at < 8; at++)
        block[63 - at] = 8 * length >> 8 * at;
    digest(block);
}

static int queens(unsigned columns, unsigned left, unsigned right)
{
    int count = columns == 255;
    for (unsigned free = 255 & ~(columns | left | right), place; free; free -= place) {
        place = free & -free;
        count += queens(columns | place, (left | place) << 1, (right | place) >> 1);
    }
    return count;
}

int main(int argc, char *argv[])
{
    char date[40];
    time_t moment = 1000000000;
    unsigned __int128 square = (unsigned __int128)UINT64_MAX * UINT64_MAX;
    FILE *file = argc > 1 ? fopen(argv[1], "rb") : NULL;
    assert(file);
    begin();
    digest_file(file);
    for (int at = 0; at < 8; at++)
        printf("%08x", (unsigned)state[at]);
    printf("\n%d queens\n%llx %llx\n", queens(0, 0, 0), (unsigned long long)(square >> 64), (unsigned long long)square);
    strftime(date, sizeof date, "%Y-%m-%d %H:%M:%S", gmtime(&moment));
    puts(date);
    return 0;
}
