/* The SHA-256 of a million letters a. The status is 0 where it begins with the word that FIPS 180 gives. */
enum { LETTERS = 1000000, ROUNDS = 64, WANTED = 0xcdc76e5c };

static const unsigned CONSTANTS[ROUNDS] = {
    0x428a2f98, 0x71374491, 0xb5c0fbcf, 0xe9b5dba5, 0x3956c25b, 0x59f111f1, 0x923f82a4, 0xab1c5ed5,
    0xd807aa98, 0x12835b01, 0x243185be, 0x550c7dc3, 0x72be5d74, 0x80deb1fe, 0x9bdc06a7, 0xc19bf174,
    0xe49b69c1, 0xefbe4786, 0x0fc19dc6, 0x240ca1cc, 0x2de92c6f, 0x4a7484aa, 0x5cb0a9dc, 0x76f988da,
    0x983e5152, 0xa831c66d, 0xb00327c8, 0xbf597fc7, 0xc6e00bf3, 0xd5a79147, 0x06ca6351, 0x14292967,
    0x27b70a85, 0x2e1b2138, 0x4d2c6dfc, 0x53380d13, 0x650a7354, 0x766a0abb, 0x81c2c92e, 0x92722c85,
    0xa2bfe8a1, 0xa81a664b, 0xc24b8b70, 0xc76c51a3, 0xd192e819, 0xd6990624, 0xf40e3585, 0x106aa070,
    0x19a4c116, 0x1e376c08, 0x2748774c, 0x34b0bcb5, 0x391c0cb3, 0x4ed8aa4a, 0x5b9cca4f, 0x682e6ff3,
    0x748f82ee, 0x78a5636f, 0x84c87814, 0x8cc70208, 0x90befffa, 0xa4506ceb, 0xbef9a3f7, 0xc67178f2,
};

static unsigned turned(unsigned word, int by)
{
    return word >> by | word << (32 - by);
}

/* Mixes a block of 16 words into a state of eight. */
static void mix(unsigned *state, const unsigned *block)
{
    unsigned words[ROUNDS];
    for (int at = 0; at < 16; at++)
        words[at] = block[at];
    for (int at = 16; at < ROUNDS; at++) {
        unsigned left = words[at - 15], right = words[at - 2];
        words[at] = words[at - 16] + words[at - 7] + (turned(left, 7) ^ turned(left, 18) ^ left >> 3) +
                    (turned(right, 17) ^ turned(right, 19) ^ right >> 10);
    }
    unsigned a = state[0], b = state[1], c = state[2], d = state[3];
    unsigned e = state[4], f = state[5], g = state[6], h = state[7];
    for (int at = 0; at < ROUNDS; at++) {
        unsigned first = h + (turned(e, 6) ^ turned(e, 11) ^ turned(e, 25)) + ((e & f) ^ (~e & g)) + CONSTANTS[at] + words[at];
        unsigned second = (turned(a, 2) ^ turned(a, 13) ^ turned(a, 22)) + ((a & b) ^ (a & c) ^ (b & c));
        h = g, g = f, f = e, e = d + first, d = c, c = b, b = a, a = first + second;
    }
    state[0] += a, state[1] += b, state[2] += c, state[3] += d;
    state[4] += e, state[5] += f, state[6] += g, state[7] += h;
}

int main(void)
{
    unsigned state[8] = {0x6a09e667, 0xbb67ae85, 0x3c6ef372, 0xa54ff53a, 0x510e527f, 0x9b05688c, 0x1f83d9ab, 0x5be0cd19};
    unsigned block[16];
    for (int at = 0; at < 16; at++)
        block[at] = 0x61616161;
    /* A million letters are whole blocks. */
    for (int left = LETTERS; left > 0; left -= 64)
        mix(state, block);
    /* The last block: a bit, and how many bits there were. */
    block[0] = 0x80000000;
    for (int at = 1; at < 15; at++)
        block[at] = 0;
    block[15] = 8 * LETTERS;
    mix(state, block);
    return state[0] != WANTED;
}
