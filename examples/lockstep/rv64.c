/* rv64.c: an interpreter of RV64IM, as short as it gets. With -DPLANTED one instruction is wrong, as in simulators that were published:
   sraw shifts by six bits of its second register, and not by five. */
#include "rv64.h"

#include <stddef.h>
#include <string.h>

typedef __int128 wide;
typedef unsigned __int128 uwide;

static uint8_t *at(const struct rv64 *hart, uint64_t address, unsigned bytes, unsigned may)
{
    if (address % bytes != 0 || address / RV64_PAGE >= hart->pages || !(hart->marks[address / RV64_PAGE] & may)) return NULL;
    return hart->memory + address;
}

uint32_t rv64_fetch(const struct rv64 *hart, uint64_t address)
{
    const uint8_t *bytes = at(hart, address, 4, RV64_EXECUTE);
    uint32_t word = 0;
    if (bytes != NULL) memcpy(&word, bytes, 4);
    return word;
}

/* ---- immediates */

static uint64_t sign(uint64_t bits, unsigned count)
{
    return (uint64_t)((int64_t)(bits << (64 - count)) >> (64 - count));
}

static uint64_t imm_i(uint32_t word) { return sign(word >> 20, 12); }
static uint64_t imm_s(uint32_t word) { return sign((word >> 25) << 5 | (word >> 7 & 31), 12); }
static uint64_t imm_u(uint32_t word) { return sign(word & 0xfffff000, 32); }

static uint64_t imm_b(uint32_t word)
{
    return sign((word >> 31) << 12 | (word >> 7 & 1) << 11 | (word >> 25 & 63) << 5 | (word >> 8 & 15) << 1, 13);
}

static uint64_t imm_j(uint32_t word)
{
    return sign((word >> 31) << 20 | (word >> 12 & 255) << 12 | (word >> 20 & 1) << 11 | (word >> 21 & 1023) << 1, 21);
}

/* ---- arithmetic. An operation is its funct3, with bit 3 for the alternative (sub, sra) and bit 4 for M. */

enum { ALTERNATIVE = 8, M = 16 };

static uint64_t divide(uint64_t a, uint64_t b) { return b == 0 ? UINT64_MAX : b == UINT64_MAX ? 0 - a : (uint64_t)((int64_t)a / (int64_t)b); }
static uint64_t remain(uint64_t a, uint64_t b) { return b == 0 ? a : b == UINT64_MAX ? 0 : (uint64_t)((int64_t)a % (int64_t)b); }

static int compute(unsigned operation, uint64_t a, uint64_t b, uint64_t *result)
{
    switch (operation) {
    case 0: *result = a + b; return 1;
    case ALTERNATIVE: *result = a - b; return 1;
    case 1: *result = a << (b & 63); return 1;
    case 2: *result = (int64_t)a < (int64_t)b; return 1;
    case 3: *result = a < b; return 1;
    case 4: *result = a ^ b; return 1;
    case 5: *result = a >> (b & 63); return 1;
    case 5 + ALTERNATIVE: *result = (uint64_t)((int64_t)a >> (b & 63)); return 1;
    case 6: *result = a | b; return 1;
    case 7: *result = a & b; return 1;
    case M: *result = a * b; return 1;
    case M + 1: *result = (uint64_t)((uwide)((wide)(int64_t)a * (int64_t)b) >> 64); return 1;
    case M + 2: *result = (uint64_t)((uwide)((wide)(int64_t)a * (wide)(uwide)b) >> 64); return 1;
    case M + 3: *result = (uint64_t)((uwide)a * b >> 64); return 1;
    case M + 4: *result = divide(a, b); return 1;
    case M + 5: *result = b == 0 ? UINT64_MAX : a / b; return 1;
    case M + 6: *result = remain(a, b); return 1;
    case M + 7: *result = b == 0 ? a : a % b; return 1;
    }
    return 0;
}

/* The same of the low 32 bits. */
static int compute_word(unsigned operation, uint64_t a, uint64_t b, uint64_t *result)
{
    uint64_t low = 0;
    uint32_t x = (uint32_t)a, y = (uint32_t)b;
    switch (operation) {
    case 0: low = a + b; break;
    case ALTERNATIVE: low = a - b; break;
    case 1: low = (uint64_t)x << (b & 31); break;
    case 5: low = x >> (b & 31); break;
#ifdef PLANTED
    case 5 + ALTERNATIVE: low = (uint64_t)((int64_t)sign(x, 32) >> (b & 63)); break;
#else
    case 5 + ALTERNATIVE: low = (uint64_t)((int64_t)sign(x, 32) >> (b & 31)); break;
#endif
    case M: low = a * b; break;
    case M + 4: low = divide(sign(x, 32), sign(y, 32)); break;
    case M + 5: low = y == 0 ? UINT32_MAX : x / y; break;
    case M + 6: low = remain(sign(x, 32), sign(y, 32)); break;
    case M + 7: low = y == 0 ? x : x % y; break;
    default: return 0;
    }
    *result = sign(low & UINT32_MAX, 32);
    return 1;
}

/* The operation of a word with two registers (funct7 0, 32, 1), or none. */
static unsigned of_registers(uint32_t word)
{
    unsigned kind = word >> 12 & 7, seven = word >> 25;
    return seven == 0 ? kind : seven == 1 ? kind + M : seven == 32 && (kind == 0 || kind == 5) ? kind + ALTERNATIVE : 99;
}

/* The operation of a word with an immediate whose shifts have that many bits, and the immediate. */
static unsigned of_immediate(uint32_t word, unsigned bits, uint64_t *value)
{
    unsigned kind = word >> 12 & 7;
    uint32_t above = word >> (20 + bits), alternative = 1u << (10 - bits);
    *value = imm_i(word);
    if (kind != 1 && kind != 5) return kind;
    *value &= (1u << bits) - 1;
    return above == 0 ? kind : kind == 5 && above == alternative ? kind + ALTERNATIVE : 99;
}

/* ---- memory and branches */

static int load(const struct rv64 *hart, unsigned kind, uint64_t address, uint64_t *result)
{
    unsigned bytes = 1u << (kind & 3);
    const uint8_t *from = kind == 7 ? NULL : at(hart, address, bytes, RV64_READ);
    uint64_t value = 0;
    if (from == NULL) return 0;
    memcpy(&value, from, bytes);
    *result = kind < 4 ? sign(value, 8 * bytes) : value;
    return 1;
}

static int store(struct rv64 *hart, unsigned kind, uint64_t address, uint64_t value)
{
    unsigned bytes = 1u << kind;
    uint8_t *to = kind > 3 ? NULL : at(hart, address, bytes, RV64_WRITE);
    if (to == NULL) return 0;
    memcpy(to, &value, bytes);
    hart->stored = address;
    hart->stored_bytes = bytes;
    return 1;
}

/* 1 it branches, 0 it doesn't, -1 it is no branch. */
static int branches(unsigned kind, uint64_t a, uint64_t b)
{
    switch (kind) {
    case 0: return a == b;
    case 1: return a != b;
    case 4: return (int64_t)a < (int64_t)b;
    case 5: return (int64_t)a >= (int64_t)b;
    case 6: return a < b;
    case 7: return a >= b;
    }
    return -1;
}

/* ---- an instruction */

enum rv64_end rv64_step(struct rv64 *hart)
{
    uint32_t word = rv64_fetch(hart, hart->pc);
    unsigned rd = word >> 7 & 31, kind = word >> 12 & 7;
    uint64_t a = hart->x[word >> 15 & 31], b = hart->x[word >> 20 & 31], next = hart->pc + 4, value = hart->x[rd];
    int done = 0;
    hart->stored_bytes = 0;
    switch (word & 127) {
    case 0x03: done = load(hart, kind, a + imm_i(word), &value); break;
    case 0x0f: done = kind == 0; break;
    case 0x13: { unsigned operation = of_immediate(word, 6, &b); done = compute(operation, a, b, &value); break; }
    case 0x17: value = hart->pc + imm_u(word); done = 1; break;
    case 0x1b: { unsigned operation = of_immediate(word, 5, &b); done = compute_word(operation, a, b, &value); break; }
    case 0x23: done = store(hart, kind, a + imm_s(word), b); break;
    case 0x33: done = compute(of_registers(word), a, b, &value); break;
    case 0x37: value = imm_u(word); done = 1; break;
    case 0x3b: done = compute_word(of_registers(word), a, b, &value); break;
    case 0x63: {
        int taken = branches(kind, a, b);
        if (taken == 1) next = hart->pc + imm_b(word);
        done = taken >= 0;
        break;
    }
    case 0x67: value = next; next = (a + imm_i(word)) & ~1ull; done = kind == 0; break;
    case 0x6f: value = next; next = hart->pc + imm_j(word); done = 1; break;
    case 0x73:
        if (word == 0x73) return RV64_CALL;
        break;
    }
    if (!done || next % 4 != 0) return RV64_FAULT;
    switch (word & 127) {
    case 0x0f: case 0x23: case 0x63: break;
    default: if (rd != 0) hart->x[rd] = value;
    }
    hart->pc = next;
    return RV64_DONE;
}
