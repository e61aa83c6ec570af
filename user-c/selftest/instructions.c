/* Instructions: what they compute, and words that are none. */
#include "check.h"

/* ---- numbers: two operands, or one and a constant, and what comes of them by the manual. Half the rows set
   numbers of 32 bits apart from those of 64, signed ones from others, or meet a limit. */

#define ROWS \
    OF_TWO(add, 0x7fffffffffffffff, 1, 0x8000000000000000) \
    OF_TWO(add, 0xfffffffffffffff3, 20, 7) \
    OF_TWO(sub, 1, 2, 0xffffffffffffffff) \
    OF_TWO(sub, 0x8000000080000001, 0x7fffffffffffffff, 0x80000002) \
    OF_TWO(sll, 0x123456789abcdef0, 68, 0x23456789abcdef00) \
    OF_TWO(sll, 3, 63, 0x8000000000000000) \
    OF_TWO(slt, 0xfffffffffffffff3, 1, 1) \
    OF_TWO(slt, 1, 0xfffffffffffffff3, 0) \
    OF_TWO(sltu, 0xfffffffffffffff3, 1, 0) \
    OF_TWO(sltu, 1, 0xfffffffffffffff3, 1) \
    OF_TWO(xor, 0x123456789abcdef0, 0xfffffffffffffff3, 0xedcba98765432103) \
    OF_TWO(srl, 0x8000000080000001, 65, 0x4000000040000000) \
    OF_TWO(srl, 0xfffffffffffffff3, 4, 0xfffffffffffffff) \
    OF_TWO(sra, 0x8000000080000001, 65, 0xc000000040000000) \
    OF_TWO(sra, 0x123456789abcdef0, 4, 0x123456789abcdef) \
    OF_TWO(or, 0x123456789abcdef0, 0x8000000080000001, 0x923456789abcdef1) \
    OF_TWO(and, 0x123456789abcdef0, 0xfffffffffffffff3, 0x123456789abcdef0) \
    OF_TWO(mul, 0x123456789abcdef0, 0xfffffffffffffff3, 0x13579be02468add0) \
    OF_TWO(mul, 0x8000000080000001, 0x8000000080000001, 0x4000000100000001) \
    OF_TWO(mulh, 0x8000000080000001, 0x123456789abcdef0, 0xf6e5d4c3bbbbbbc4) \
    OF_TWO(mulh, 0xfffffffffffffff3, 0xfffffffffffffff3, 0) \
    OF_TWO(mulhsu, 0xfffffffffffffff3, 0xfffffffffffffff3, 0xfffffffffffffff3) \
    OF_TWO(mulhsu, 0x8000000080000001, 0x123456789abcdef0, 0xf6e5d4c3bbbbbbc4) \
    OF_TWO(mulhu, 0xfffffffffffffff3, 0xfffffffffffffff3, 0xffffffffffffffe6) \
    OF_TWO(mulhu, 0x8000000080000001, 0x123456789abcdef0, 0x91a2b3c56789ab4) \
    OF_TWO(div, 0xfffffffffffffff3, 4, 0xfffffffffffffffd) \
    OF_TWO(div, 5, 0, 0xffffffffffffffff) \
    OF_TWO(div, 0x8000000000000000, 0xffffffffffffffff, 0x8000000000000000) \
    OF_TWO(divu, 0xfffffffffffffff3, 4, 0x3ffffffffffffffc) \
    OF_TWO(divu, 5, 0, 0xffffffffffffffff) \
    OF_TWO(rem, 0xfffffffffffffff3, 4, 0xffffffffffffffff) \
    OF_TWO(rem, 5, 0, 5) \
    OF_TWO(rem, 0x8000000000000000, 0xffffffffffffffff, 0) \
    OF_TWO(remu, 0xfffffffffffffff3, 4, 3) \
    OF_TWO(remu, 0xfffffffffffffff3, 0, 0xfffffffffffffff3) \
    OF_TWO(addw, 0x7fffffff, 1, 0xffffffff80000000) \
    OF_TWO(addw, 0x123456789abcdef0, 0x8000000080000001, 0x1abcdef1) \
    OF_TWO(subw, 0, 1, 0xffffffffffffffff) \
    OF_TWO(subw, 0x80000000, 1, 0x7fffffff) \
    OF_TWO(sllw, 0x123456789abcdef0, 36, 0xffffffffabcdef00) \
    OF_TWO(sllw, 1, 31, 0xffffffff80000000) \
    OF_TWO(srlw, 0x80000000, 0, 0xffffffff80000000) \
    OF_TWO(srlw, 0xffffffff9abcdef0, 36, 0x9abcdef) \
    OF_TWO(sraw, 0x40000000, 20, 0x400) \
    OF_TWO(sraw, 0x80000000, 35, 0xfffffffff0000000) \
    OF_TWO(mulw, 0x123456789abcdef0, 0x123456789abcdef0, 0xfffffffff2a52100) \
    OF_TWO(mulw, 0x80000000, 3, 0xffffffff80000000) \
    OF_TWO(divw, 0xffffffff0000000d, 0xfffffffffffffff3, 0xffffffffffffffff) \
    OF_TWO(divw, 7, 0x100000000, 0xffffffffffffffff) \
    OF_TWO(divw, 0x80000000, 0xffffffffffffffff, 0xffffffff80000000) \
    OF_TWO(divuw, 0xfffffffffffffff3, 4, 0x3ffffffc) \
    OF_TWO(divuw, 7, 0x100000000, 0xffffffffffffffff) \
    OF_TWO(remw, 0xfffffffffffffff3, 4, 0xffffffffffffffff) \
    OF_TWO(remw, 0x80000005, 0x100000000, 0xffffffff80000005) \
    OF_TWO(remw, 0x80000000, 0xffffffffffffffff, 0) \
    OF_TWO(remuw, 0xfffffffffffffff3, 4, 3) \
    OF_TWO(remuw, 0x80000005, 0x100000000, 0xffffffff80000005) \
    OF_ONE(addi, 0x7fffffffffffffff, 1, 0x8000000000000000) \
    OF_ONE(addi, 0, -2048, 0xfffffffffffff800) \
    OF_ONE(slti, 0xfffffffffffffff3, -12, 1) \
    OF_ONE(slti, 5, -1, 0) \
    OF_ONE(sltiu, 0x1388, -1, 1) \
    OF_ONE(sltiu, 0, 1, 1) \
    OF_ONE(xori, 0x123456789abcdef0, -1, 0xedcba9876543210f) \
    OF_ONE(ori, 0x123456789abcdef0, -2048, 0xfffffffffffffef0) \
    OF_ONE(andi, 0x123456789abcdef0, -16, 0x123456789abcdef0) \
    OF_ONE(slli, 3, 63, 0x8000000000000000) \
    OF_ONE(srli, 0x8000000080000001, 33, 0x40000000) \
    OF_ONE(srai, 0x8000000080000001, 33, 0xffffffffc0000000) \
    OF_ONE(addiw, 0x7fffffff, 1, 0xffffffff80000000) \
    OF_ONE(addiw, 0x123456789abcdef0, 0, 0xffffffff9abcdef0) \
    OF_ONE(slliw, 0x123456789abcdef0, 4, 0xffffffffabcdef00) \
    OF_ONE(srliw, 0x80000000, 0, 0xffffffff80000000) \
    OF_ONE(srliw, 0x123456789abcdef0, 4, 0x9abcdef) \
    OF_ONE(sraiw, 0x80000000, 4, 0xfffffffff8000000)

/* A function an operation: a0 and a1 are the operands. */
#define OF_TWO(operation, first, second, wanted) \
    ".balign 8\n " #operation " a0, a0, a1\n ret\n"
#define OF_ONE(operation, first, constant, wanted) \
    ".balign 8\n " #operation " a0, a0, " #constant "\n ret\n"

__asm__(".section .text.operations, \"ax\"\n .balign 8\noperations:\n" ROWS);

#undef OF_TWO
#undef OF_ONE
#define OF_TWO(operation, first, second, wanted)   { first, second, wanted },
#define OF_ONE(operation, first, constant, wanted) { first, 0, wanted },

static const struct { uint64 first, second, wanted; } rows[] = { ROWS };

extern const char operations[];

void test_instructions_compute(void)
{
    for (uint at = 0; at < sizeof rows / sizeof *rows; at++) {
        uint64 (*operation)(uint64, uint64) = (uint64 (*)(uint64, uint64))(operations + 8 * at);
        WANT(operation(rows[at].first, rows[at].second) == rows[at].wanted);
    }
}

/* ---- loads and stores */

#define LOAD(instruction, place, wanted) do { \
        uint64 got; \
        __asm__ volatile(instruction " %0, 0(%1)" : "=r"(got) : "r"(place) : "memory"); \
        WANT(got == (uint64)(wanted)); \
    } while (0)

#define STORE(instruction, place, value) \
    __asm__ volatile(instruction " %0, 0(%1)" ::"r"((uint64)(value)), "r"(place) : "memory")

void test_instructions_load(void)
{
    static const uint64 place[2] = { 0x8182838485868788, 0x0102030405060708 };
    const char *bytes = (const char *)place;
    LOAD("ld", bytes, 0x8182838485868788);
    LOAD("lw", bytes, 0xffffffff85868788);
    LOAD("lwu", bytes + 4, 0x81828384);
    LOAD("lh", bytes + 2, 0xffffffffffff8586);
    LOAD("lhu", bytes + 6, 0x8182);
    LOAD("lb", bytes + 7, 0xffffffffffffff81);
    LOAD("lbu", bytes + 3, 0x85);
    LOAD("lw", bytes + 12, 0x01020304);
    LOAD("lb", bytes + 8, 8);
    uint64 got;
    __asm__ volatile("ld %0, -8(%1)" : "=r"(got) : "r"(bytes + 16) : "memory");
    WANT(got == place[1]);
}

void test_instructions_store(void)
{
    uint64 place[3] = { -1, -1, -1 };
    char *bytes = (char *)place;
    STORE("sb", bytes + 9, 0x1234);
    WANT(place[1] == 0xffffffffffff34ff);
    STORE("sh", bytes + 12, 0x123456);
    WANT(place[1] == 0xffff3456ffff34ff);
    STORE("sw", bytes + 8, 0x9876543210);
    WANT(place[1] == 0xffff345676543210);
    STORE("sd", bytes + 8, 0x0123456789abcdef);
    WANT(place[1] == 0x0123456789abcdef);
    WANT(place[0] == (uint64)-1 && place[2] == (uint64)-1);
}

/* ---- branches and jumps */

#define TAKEN(branch, first, second) ({ \
        int taken; \
        __asm__ volatile("li %0, 1\n " branch " %1, %2, 1f\n li %0, 0\n 1:" \
            : "=&r"(taken) : "r"((long)(first)), "r"((long)(second))); \
        taken; \
    })

void test_instructions_branch(void)
{
    WANT(TAKEN("beq", 5, 5) && !TAKEN("beq", 5, 1L << 32 | 5));
    WANT(TAKEN("bne", 5, 1L << 32 | 5) && !TAKEN("bne", -1, -1));
    WANT(TAKEN("blt", -1, 1) && !TAKEN("blt", 1, -1) && !TAKEN("blt", 1, 1));
    WANT(TAKEN("bge", 1, -1) && TAKEN("bge", 1, 1) && !TAKEN("bge", -1, 1));
    WANT(TAKEN("bltu", 1, -1) && !TAKEN("bltu", -1, 1) && !TAKEN("bltu", 1, 1));
    WANT(TAKEN("bgeu", -1, 1) && TAKEN("bgeu", 1, 1) && !TAKEN("bgeu", 1, -1));
}

void test_instructions_jump(void)
{
    long got, place;
    __asm__ volatile("la %0, 1f\n jalr %0, %0, 0\n 2: li %0, 0\n 1: la %1, 2b\n" : "=&r"(got), "=&r"(place));
    WANT(got == place);         /* the register is read before the return address is put in it */
    __asm__ volatile("la t0, 1f\n addi t0, t0, 1\n li %0, 0\n jr t0\n j 2f\n 1: li %0, 1\n 2:" : "=&r"(got) :: "t0");
    WANT(got == 1);             /* bit 0 of the target is cleared */
    __asm__ volatile(
        "la t0, 1f\n li %0, 0\n jalr t1, 1(t0)\n 2: j 3f\n 1: la %1, 2b\n sub %0, t1, %1\n addi %0, %0, 1\n 3:"
        : "=&r"(got), "=&r"(place) :: "t0", "t1");
    WANT(got == 1);             /* with a return address, too */
    __asm__ volatile("la t0, 1f\n li %0, 1\n jr -8(t0)\n li %0, 2\n addi %0, %0, 5\n nop\n 1:" : "=&r"(got) :: "t0");
    WANT(got == 6);
    __asm__ volatile("jal t0, 1f\n 2: nop\n 1: la %1, 2b\n mv %0, t0" : "=&r"(got), "=&r"(place) :: "t0");
    WANT(got == place);
}

void test_instructions_upper(void)
{
    long got, place;
    __asm__ volatile("lui %0, 0x80000" : "=r"(got));
    WANT(got == -0x80000000L);
    __asm__ volatile("1: auipc %0, 0x12\n la %1, 1b" : "=&r"(got), "=&r"(place));
    WANT(got == place + 0x12000);
    __asm__ volatile("addi x0, x0, 5\n mv %0, x0" : "=r"(got));
    WANT(got == 0);
    __asm__ volatile("fence\n .word 0x0330000f\n .word 0x8330000f");     /* each does nothing */
}

/* ---- words that are no instruction, each with a return after it */

__asm__(
    ".section .text.words, \"ax\"\n .balign 8\nno_instructions:\n"
    ".irp word, 0x00000000, 0xffffffff, 0x00100073, 0x00000001, 0x00008082, 0x10500073, 0x30200073, 0x10200073, 0x12000073,"
    " 0xc0002573, 0x0000100f, 0x00007003, 0x00004023, 0x00002063, 0x00003063, 0x00001067, 0x0205151b, 0x0205551b, 0x4205551b,"
    " 0x04051513, 0x80055513, 0x08055513, 0x04b50533, 0x40b51533, 0x40b57533, 0x0200253b, 0x0205153b, 0x0205253b, 0x0000251b,"
    " 0x0100252f, 0x08b5252f, 0x00052507, 0x00b50553, 0x00200073, 0x00000173, 0x00008073, 0x0000000b, 0x0000005b\n"
    " .word \\word\n ret\n .endr\nno_instructions_end:\n");

extern const char no_instructions[], no_instructions_end[];

static const char *word;

static void run_word(void)
{
    ((void (*)(void))word)();
}

void test_instructions_are_refused(void)
{
    for (word = no_instructions; word < no_instructions_end; word += 8)
        WANT(status_of(run_word) == -1);
}

/* ---- calls keep registers */

#define OTHERS "1,3,4,6,7,8,9,13,14,15,16,18,19,20,21,22,23,24,25,26,27,28,29,30,31"

/* Does a call with registers of all kinds set: the stack pointer and those of arguments are kept in a list to compare with, t0
   points to the list, and each other one is 1000 and its number. Returns how many changed, a0 left out. */
static __attribute__((noinline)) int changed_by(long number, long first, long second, long third)
{
    uint64 kept[32] = { 0 };
    register long a0 __asm__("a0") = first;
    register long a1 __asm__("a1") = second;
    register long a2 __asm__("a2") = third;
    register long a7 __asm__("a7") = number;
    register uint64 *list __asm__("t0") = kept;
    __asm__ volatile(
        ".irp number, 1,2,3,4,8,9,11,12,17\n sd x\\number, 8 * \\number(t0)\n .endr\n"
        ".irp number, " OTHERS "\n li x\\number, 1000 + \\number\n .endr\n"
        "ecall\n"
        "li a0, 0\n"
        ".irp number, " OTHERS "\n"
        " addi x\\number, x\\number, -1000 - \\number\n snez x\\number, x\\number\n add a0, a0, x\\number\n"
        ".endr\n"
        ".irp number, 2,11,12,17\n"
        " ld t1, 8 * \\number(t0)\n sub t1, t1, x\\number\n snez t1, t1\n add a0, a0, t1\n"
        ".endr\n"
        ".irp number, 1,3,4,8,9\n ld x\\number, 8 * \\number(t0)\n .endr\n"
        : "+r"(a0), "+r"(a1), "+r"(a2), "+r"(a7), "+r"(list)
        :
        : "a3", "a4", "a5", "a6", "t1", "t2", "t3", "t4", "t5", "t6", "s2", "s3", "s4", "s5", "s6", "s7", "s8", "s9",
          "s10", "s11", "memory");
    return a0;
}

void test_calls_keep_registers(void)
{
    int ends[2];
    make_gate(ends);
    WANT(changed_by(SYS_getpid, 0, 0, 0) == 0);
    WANT(changed_by(99, 1, 2, 3) == 0);
    WANT(changed_by(SYS_open, (long)"none", 0, 3) == 0);
    WANT(changed_by(SYS_write, ends[1], (long)"abc", 3) == 0);
    WANT(changed_by(SYS_read, ends[0], (long)big, 3) == 0);
    WANT(changed_by(SYS_sbrk, PAGE, 0, 0) == 0);
    WANT(changed_by(SYS_mkdir, (long)"d", 0, 0) == 0 && changed_by(SYS_unlink, (long)"d", 0, 0) == 0);
    WANT(changed_by(SYS_fstat, 0, (long)big, 0) == 0);
    WANT(changed_by(SYS_sleep, 0, 0, 0) == 0);
    WANT(changed_by(SYS_exec, (long)"none", (long)big, 0) == 0);
}

/* The same of a call that waits, and of fork in parent and child. */
void test_waiting_keeps_registers(void)
{
    int ends[2], parent = getpid();
    make_gate(ends);
    int pid = child();
    if (pid == 0) {
        close(ends[1]);
        WANT(changed_by(SYS_read, ends[0], (long)big, 1) == 0);
        exit(0);
    }
    give_turns();
    WANT(write(ends[1], "x", 1) == 1);
    wait_for(pid);
    WANT(changed_by(SYS_fork, 0, 0, 0) == 0);
    if (getpid() != parent)
        exit(0);
    WANT(changed_by(SYS_wait, (long)big, 0, 0) == 0);
    WANT(*(int *)big == 0);
}
