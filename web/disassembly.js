// From a word to the text of the instruction of RV64IM that it is, in the form in which `xv6 asm` takes it.

export const REGISTERS = (
  "zero ra sp gp tp t0 t1 t2 s0 s1 a0 a1 a2 a3 a4 a5 a6 a7 s2 s3 s4 s5 s6 s7 s8 s9 s10 s11 t3 t4 t5 t6"
).split(" ");

const BRANCHES = ["beq", "bne", , , "blt", "bge", "bltu", "bgeu"];
const LOADS = ["lb", "lh", "lw", "ld", "lbu", "lhu", "lwu"];
const STORES = ["sb", "sh", "sw", "sd"];
const IMMEDIATES = ["addi", , "slti", "sltiu", "xori", , "ori", "andi"];
const OPERATIONS = {
  0x00: ["add", "sll", "slt", "sltu", "xor", "srl", "or", "and"],
  0x20: ["sub", , , , , "sra"],
  0x01: ["mul", "mulh", "mulhsu", "mulhu", "div", "divu", "rem", "remu"],
};
const WORD_OPERATIONS = {
  0x00: ["addw", "sllw", , , , "srlw"],
  0x20: ["subw", , , , , "sraw"],
  0x01: ["mulw", , , , "divw", "divuw", "remw", "remuw"],
};
const SHIFTS = { 0x00: [, "slli", , , , "srli"], 0x20: [, , , , , "srai"] };
const FENCE = 0x0f;
const FULL_FENCE = 0x0ff0000f;
const ECALL = 0x00000073;
const EBREAK = 0x00100073;

const bits = (word, from, count) => (word >>> from) & ((1 << count) - 1);
const fieldsOf = (word) => ({
  rd: REGISTERS[bits(word, 7, 5)],
  first: REGISTERS[bits(word, 15, 5)],
  second: REGISTERS[bits(word, 20, 5)],
  middle: bits(word, 12, 3),
  top: word >>> 25,
  immediate: word >> 20,
});

const storeOffset = (word) => ((word >> 25) << 5) | bits(word, 7, 5);
const branchOffset = (word) => ((word >> 31) << 12) | (bits(word, 7, 1) << 11) | (bits(word, 25, 6) << 5) | (bits(word, 8, 4) << 1);
const jumpOffset = (word) => ((word >> 31) << 20) | (bits(word, 12, 8) << 12) | (bits(word, 20, 1) << 11) | (bits(word, 21, 10) << 1);

const upper = (name) => (word, { rd }) => `${name} ${rd}, 0x${(word >>> 12).toString(16)}`;
const three = (name, a, b, c) => name && `${name} ${a}, ${b}, ${c}`;
const memory = (name, register, offset, base) => name && `${name} ${register}, ${offset}(${base})`;

function immediate(word, { rd, first, middle, top, immediate }) {
  if (middle % 4 !== 1) return three(IMMEDIATES[middle], rd, first, immediate);
  return three(SHIFTS[top & ~1]?.[middle], rd, first, bits(word, 20, 6));
}

function wordImmediate(word, { rd, first, middle, top, immediate }) {
  if (middle === 0) return three("addiw", rd, first, immediate);
  const name = SHIFTS[top]?.[middle];
  return three(name && `${name}w`, rd, first, bits(word, 20, 5));
}

function fixed(word) {
  return { [FULL_FENCE]: "fence", [ECALL]: "ecall", [EBREAK]: "ebreak" }[word];
}

const FORMS = {
  0x37: upper("lui"),
  0x17: upper("auipc"),
  0x6f: (word, { rd }) => `jal ${rd}, ${jumpOffset(word)}`,
  0x67: (word, { rd, first, middle, immediate }) => memory(middle === 0 && "jalr", rd, immediate, first),
  0x63: (word, { first, second, middle }) => three(BRANCHES[middle], first, second, branchOffset(word)),
  0x03: (word, { rd, first, middle, immediate }) => memory(LOADS[middle], rd, immediate, first),
  0x23: (word, { first, second, middle }) => memory(STORES[middle], second, storeOffset(word), first),
  0x13: immediate,
  0x33: (word, { rd, first, second, middle, top }) => three(OPERATIONS[top]?.[middle], rd, first, second),
  0x1b: wordImmediate,
  0x3b: (word, { rd, first, second, middle, top }) => three(WORD_OPERATIONS[top]?.[middle], rd, first, second),
  0x0f: fixed,
  0x73: fixed,
};

const textOf = (word) => FORMS[word & 0x7f]?.(word, fieldsOf(word));

/** Whether a word is an instruction. */
export const isInstruction = (word) => Boolean(textOf(word)) || (word & 0x707f) === FENCE;

/** The text of a word: an instruction, or data where it is none. */
export function disassemble(word) {
  return textOf(word) || `.word 0x${(word >>> 0).toString(16).padStart(8, "0")}`;
}

/** Whether a word is a call of the kernel. */
export const isCall = (word) => word === ECALL;
