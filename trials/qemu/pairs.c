/* Multiplications and divisions on random pairs: their results, folded into a number for each instruction.

   The program prints ROUNDS lines. Each has, for PAIRS pairs, a number for each of the 13 instructions, in hexadecimal digits,
   into which all results are folded one after the other. It runs under Linux, as qemu-riscv64 runs it, and where XV6 is
   defined, on this repository's machine. It has no library, and what the compiler makes of its own code has no multiplication
   in it that a wrong instruction could spoil on both sides alike. */
#ifdef XV6
enum { WRITE = 16, EXIT = 2 };
#else
enum { WRITE = 64, EXIT = 93 };
#endif

typedef unsigned long number;

static long call(long which, long first, long second, long third)
{
    register long a0 __asm__("a0") = first;
    register long a1 __asm__("a1") = second;
    register long a2 __asm__("a2") = third;
    register long a7 __asm__("a7") = which;
    __asm__ volatile("ecall" : "+r"(a0) : "r"(a1), "r"(a2), "r"(a7) : "memory");
    return a0;
}

/* Marsaglia's generator: shifts and exclusive ors alone. */
static number state = 88172645463325252ul;

static number random(void)
{
    state ^= state << 13;
    state ^= state >> 7;
    state ^= state << 17;
    return state;
}

/* A number of up to 64 bits, of either sign, short ones as often as long ones; one in eight is an edge. */
static number operand(void)
{
    static const number edges[16] = {
        0, 1, 2, -1ul, -2ul, 0x7fffffff, 0x80000000, 0xffffffff, 0x100000000, -0x80000000ul, -0x80000001ul,
        0x7fffffffffffffff, 0x8000000000000000, 0x8000000000000001, 3, -3ul
    };
    number how = random();
    if (how % 8 == 0)
        return edges[how >> 8 & 15];
    number size = random() >> (how >> 8 & 63);
    return how >> 16 & 1 ? -size : size;
}

#define FOLD(at, name) \
    do { \
        number result; \
        __asm__(#name " %0, %1, %2" : "=r"(result) : "r"(a), "r"(b)); \
        number old = folded[at]; \
        folded[at] = (old << 5 | old >> 59) ^ result; \
    } while (0)

static void do_pair(number folded[13], number a, number b)
{
    FOLD(0, mul);
    FOLD(1, mulh);
    FOLD(2, mulhsu);
    FOLD(3, mulhu);
    FOLD(4, div);
    FOLD(5, divu);
    FOLD(6, rem);
    FOLD(7, remu);
    FOLD(8, mulw);
    FOLD(9, divw);
    FOLD(10, divuw);
    FOLD(11, remw);
    FOLD(12, remuw);
}

/* A line of 13 numbers of 16 digits. */
static void print(const number folded[13])
{
    char line[13 * 17];
    char *to = line;
    for (int at = 0; at < 13; at++) {
        for (int shift = 60; shift >= 0; shift -= 4)
            *to++ = "0123456789abcdef"[folded[at] >> shift & 15];
        *to++ = at < 12 ? ' ' : '\n';
    }
    call(WRITE, 1, (long)line, sizeof line);
}

__attribute__((noreturn, used)) void run(void)
{
    for (int round = 0; round < ROUNDS; round++) {
        number folded[13] = {0};
        for (int pair = 0; pair < PAIRS; pair++) {
            number a = operand();
            number b = operand();
            do_pair(folded, a, b);
        }
        print(folded);
    }
    call(EXIT, 0, 0, 0);
    __builtin_unreachable();
}

__asm__(".section .text.start, \"ax\"\n"
        ".globl start\n"
        "start: call run\n");
