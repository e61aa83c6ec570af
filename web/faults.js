// Why the next instruction of a process would end it, in words.
import { REGISTERS, disassemble, isInstruction } from "./disassembly.js";
import { PAGE } from "./memory.js";
import { say } from "./words.js";

const LOAD = 0x03;
const STORE = 0x23;
const JUMP = 0x6f;
const JUMP_BY = 0x67;
const BRANCH = 0x63;
const EBREAK = 0x00100073;
const TOP = 0x4000000000n; // the addresses of programs lie below

const hex = (value) => `0x${value.toString(16)}`;
const wrapped = (value) => BigInt.asUintN(64, value);
const signed = (value) => BigInt.asIntN(64, value);

// Why an access to an address fails; `null` where it doesn't. `mark` is what the page must have.
function pageFault(machine, process, address, mark) {
  const top = address >> 38n;
  const page = top === 0n && address < TOP ? machine.page(process.pid, address / BigInt(PAGE)) : null;
  if (!page) return say("no-page", { pages: Math.ceil(process.size / PAGE), size: hex(process.size) });
  if (!page.read) return say("guard-page");
  return page[mark] ? null : say(`no-${mark}`);
}

function fetched(machine, process) {
  const page = machine.page(process.pid, process.pc / BigInt(PAGE));
  return new DataView(page.bytes.buffer).getInt32(Number(process.pc % BigInt(PAGE)), true);
}

function accessFault(machine, process, word) {
  const isStore = (word & 0x7f) === STORE;
  const offset = isStore ? ((word >> 25) << 5) | ((word >>> 7) & 31) : word >> 20;
  const base = (word >>> 15) & 31;
  const address = wrapped(process.registers[base] + BigInt(offset));
  const size = 1n << BigInt((word >>> 12) & 3);
  const values = { address: hex(address), register: REGISTERS[base], size: String(size) };
  if (address % size !== 0n) return say(isStore ? "store-misaligned" : "load-misaligned", values);
  const why = pageFault(machine, process, address, isStore ? "write" : "read");
  return why && say(isStore ? "store-fault" : "load-fault", { ...values, why });
}

function branchTarget(process, word) {
  const [one, two] = [(word >>> 15) & 31, (word >>> 20) & 31].map((index) => process.registers[index]);
  const kind = (word >>> 12) & 7;
  const isLess = kind < 6 ? signed(one) < signed(two) : one < two;
  const isTaken = (kind < 4 ? one === two : isLess) !== Boolean(kind & 1);
  const offset = ((word >> 31) << 12) | (((word >>> 7) & 1) << 11) | (((word >>> 25) & 63) << 5) | (((word >>> 8) & 15) << 1);
  return isTaken ? wrapped(process.pc + BigInt(offset)) : null;
}

function targetOf(process, word) {
  switch (word & 0x7f) {
    case JUMP:
      return wrapped(process.pc + BigInt(((word >> 31) << 20) | (word & 0xff000) | (((word >>> 20) & 1) << 11) | (((word >>> 21) & 1023) << 1)));
    case JUMP_BY:
      return wrapped(process.registers[(word >>> 15) & 31] + BigInt(word >> 20)) & ~1n;
    case BRANCH:
      return branchTarget(process, word);
    default:
      return null;
  }
}

function jumpFault(process, word) {
  const target = targetOf(process, word);
  return target !== null && target % 4n !== 0n ? say("jump-misaligned", { address: hex(target) }) : null;
}

function instructionFault(machine, process, word) {
  if (!isInstruction(word)) return say("illegal", { word: hex(word >>> 0) });
  if (word === EBREAK) return say("breakpoint-fault");
  const kind = word & 0x7f;
  return kind === LOAD || kind === STORE ? accessFault(machine, process, word) : jumpFault(process, word);
}

/** Why the instruction at a process's pc ends it; `null` where it doesn't. */
export function faultOf(machine, process) {
  if (!process) return null;
  const why = pageFault(machine, process, process.pc, "execute");
  if (why) return say("fetch-fault", { address: hex(process.pc), why });
  const word = fetched(machine, process);
  const fault = instructionFault(machine, process, word);
  return fault && say("fault-at", { pc: hex(process.pc), text: disassemble(word), fault });
}
