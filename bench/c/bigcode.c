/* Calls 96 functions in turn, each of which lies in a page of its own. The status is 0 where the last number is that of another
   computer. */
enum { ROUNDS = 12000 };

static const unsigned long WANTED = 0xa43716f7d5612afe;

#define STEP(n) x += x << 3 ^ (n); x ^= x >> 7;
#define STEPS(n) STEP(n) STEP(n + 1) STEP(n + 2) STEP(n + 3)
#define FUNCTION(n) \
    static __attribute__((noinline, aligned(4096))) unsigned long part_##n(unsigned long x) { STEPS(0x##n) STEPS(0x##n + 4) return x; }
#define CALL(n) x = part_##n(x);

#define SIXTEEN(all, n) \
    all(n##0) all(n##1) all(n##2) all(n##3) all(n##4) all(n##5) all(n##6) all(n##7) \
    all(n##8) all(n##9) all(n##a) all(n##b) all(n##c) all(n##d) all(n##e) all(n##f)
#define ALL(all) SIXTEEN(all, 0) SIXTEEN(all, 1) SIXTEEN(all, 2) SIXTEEN(all, 3) SIXTEEN(all, 4) SIXTEEN(all, 5)

ALL(FUNCTION)

int main(void)
{
    unsigned long x = 1;
    for (int round = 0; round < ROUNDS; round++) {
        ALL(CALL)
    }
    return x != WANTED;
}
