// Notes the kernel calls of the programs, their faults, the switches and the output, each with its position.
import { isCall } from "./disassembly.js";
import { faultOf } from "./faults.js";
import { bytesAt, listAt, textAt } from "./memory.js";
import { say } from "./words.js";

const MOST_BYTES = 32; // that are shown
const MOST_KEPT = MOST_BYTES + 1; // of a read or a write
const A0 = 10;
const A7 = 17;

// How the arguments of a call are shown: a number, an address, a path, an argument list, bytes that go out or come in.
const CALLS = {
  1: { name: "fork", takes: [] },
  2: { name: "exit", takes: ["number"] },
  3: { name: "wait", takes: ["address"] },
  4: { name: "pipe", takes: ["address"] },
  5: { name: "read", takes: ["number", "in", "number"] },
  6: { name: "kill", takes: ["number"] },
  7: { name: "exec", takes: ["path", "list"] },
  8: { name: "fstat", takes: ["number", "address"] },
  9: { name: "chdir", takes: ["path"] },
  10: { name: "dup", takes: ["number"] },
  11: { name: "getpid", takes: [] },
  12: { name: "sbrk", takes: ["number"] },
  13: { name: "sleep", takes: ["number"] },
  14: { name: "uptime", takes: [] },
  15: { name: "open", takes: ["path", "flags"] },
  16: { name: "write", takes: ["number", "out", "number"] },
  17: { name: "mknod", takes: ["path", "number", "number"] },
  18: { name: "unlink", takes: ["path"] },
  19: { name: "link", takes: ["path", "path"] },
  20: { name: "mkdir", takes: ["path"] },
  21: { name: "close", takes: ["number"] },
};
export const FORK = 1;
export const EXIT = 2;
export const WAIT = 3;
export const READ = 5;
export const EXEC = 7;
export const SLEEP = 13;
export const WRITE = 16;

export const callName = (number) => CALLS[number]?.name ?? say("call-number", { number });

const low = (value) => Number(BigInt.asIntN(32, value));
const hex = (value) => `0x${value.toString(16)}`;
const ESCAPES = { 0x0a: "\\n", 0x09: "\\t", 0x0d: "\\r", 0x22: '\\"', 0x5c: "\\\\" };

function letterOf(byte) {
  if (ESCAPES[byte]) return ESCAPES[byte];
  return byte >= 0x20 && byte < 0x7f ? String.fromCharCode(byte) : `\\${byte.toString(8)}`;
}

/** Bytes between quotes, as a program's text has them. */
export function quote(bytes, most = MOST_BYTES) {
  const text = [...bytes.slice(0, most)].map(letterOf).join("");
  return `"${text}"${bytes.length > most ? "..." : ""}`;
}

function told(machine, process, kind, index) {
  const value = process.registers[A0 + index];
  switch (kind) {
    case "number":
      return String(low(value));
    case "path":
      return quote(textAt(machine, process.pid, value));
    case "list":
      return `[${listAt(machine, process.pid, value).map((text) => quote(text)).join(", ")}]`;
    default:
      return hex(value);
  }
}

// How many lines there are before a position.
function countBefore(lines, position) {
  let [from, to] = [0, lines.length];
  while (from < to) {
    const middle = (from + to) >>> 1;
    if (lines[middle].at < position) from = middle + 1;
    else to = middle;
  }
  return from;
}

/** The last of lines that stands before a position. */
export const lastBefore = (lines, position) => lines[countBefore(lines, position) - 1];

/** The first of lines that stands after a position. */
export const firstAfter = (lines, position) => lines[countBefore(lines, position + 1)];

/**
 * What was noted. Each line has its position, `at`: the number of events before the step that did it. All of it is known of the positions between
 * `from` and `to`.
 */
export class Calls {
  constructor() {
    this.lines = []; // calls
    this.switches = [];
    this.faults = [];
    this.outputs = [];
    this.open = new Map(); // the lines of calls that have no answer yet, by pid
    this.from = 0;
    this.to = 0;
    this.running = 0;
    this.last = 0; // the pid that ran last
    this.stepped = null;
  }

  knows(position) {
    return this.from <= position && position <= this.to;
  }

  /** What was not looked at is not known: what comes begins at a position. */
  skipTo(position) {
    for (const line of this.open.values()) line.isLost = true;
    this.open.clear();
    this.from = position;
    this.to = position;
    this.running = 0;
    this.stepped = null;
  }

  /** Forgets all from a position on. */
  cut(position) {
    for (const name of ["lines", "switches", "faults", "outputs"]) this[name].length = countBefore(this[name], position);
    this.open.clear();
    for (const line of this.lines) if (line.number !== EXIT && !line.isLost && (line.end === null || line.end > position)) this.reopen(line);
    this.from = Math.min(this.from, position);
    this.to = Math.min(this.to, position);
    this.running = 0;
    this.stepped = null;
    this.last = lastBefore(this.switches, position)?.pid ?? 0;
  }

  reopen(line) {
    Object.assign(line, { end: null, answer: null });
    this.open.set(line.pid, line);
  }

  /** What the calls of a process were before a position, the oldest first. */
  of(pid, position) {
    const lines = this.lines.slice(0, countBefore(this.lines, position)).filter((line) => line.pid === pid);
    return joined(lines.map((line) => asOf(line, position)));
  }

  /**
   * That many steps at most, from a position on. `stop(pid, machine, position)` is asked before each; none is made once it says so. Without it the
   * instructions between calls and faults are not looked at one by one.
   */
  run(machine, position, most, done, stop) {
    let count = 0;
    const add = (made) => {
      count += made;
    };
    try {
      while (count < most) {
        const pid = this.look(machine, position + count);
        if (stop?.(pid, machine, position + count)) break;
        // Up to the next call or fault there is nothing to note.
        const isComputing = !stop && pid && !this.stepped.isAtCall;
        const computed = isComputing ? machine.compute(most - count) : 0;
        if (computed > 0) add(computed);
        else if (machine.run(1, add) === 0) break;
      }
    } finally {
      this.settle(machine, position + count);
      done(count);
      this.to = position + count;
    }
    return count;
  }

  // The process that runs; what it did in the step before is noted, and the call that it does next.
  look(machine, position) {
    const pid = this.runningIn(machine);
    if (this.hasToSettle(pid)) {
      this.settleStep(machine, position);
      if (pid) machine.isRunning(pid);
    }
    if (!pid) return 0;
    if (pid !== this.last) this.switches.push({ at: position, pid });
    this.last = pid;
    const isAtCall = isCall(machine.word(pid));
    const open = this.open.get(pid);
    if (open && open.at !== position) this.answer(machine, machine.process(pid), position);
    if (isAtCall && open?.at !== position) this.begin(machine, machine.process(pid), position);
    this.stepped = { pid, isAtCall, at: position };
    return pid;
  }

  // An instruction that is no call, after which its process runs on, comes to nothing that is noted.
  hasToSettle(pid) {
    return this.stepped !== null && (this.stepped.isAtCall || this.stepped.pid !== pid);
  }

  runningIn(machine) {
    if (!this.running || !machine.isRunning(this.running)) this.running = machine.running();
    return this.running;
  }

  // What the last step came to: an output, an answer, an end.
  settleStep(machine, position) {
    const { stepped } = this;
    if (!stepped || stepped.at === position) return;
    this.stepped = null;
    if (machine.isRunning(stepped.pid)) {
      if (stepped.isAtCall) this.answer(machine, machine.process(stepped.pid), position);
      return;
    }
    const process = machine.process(stepped.pid);
    if (process?.state === "ready" && stepped.isAtCall) this.answer(machine, process, position);
    if (process && process.state !== "ended") return;
    this.open.delete(stepped.pid);
    if (stepped.isAtCall) return;
    this.faults.push({ at: stepped.at, pid: stepped.pid, pc: process?.pc ?? 0n, text: faultOf(machine, process) ?? say("fault-killed") });
  }

  /** A tick or a key comes at a position: a call that was next there comes later. Then `act` gives it to the machine. */
  pass(machine, position, act) {
    if ([this.lines, this.switches].some((lines) => lines.at(-1)?.at === position)) this.cut(position);
    const before = machine.written();
    act();
    if (machine.written() > before) this.wrote(position);
    this.to = position + 1;
  }

  /** Bytes came to the console in the event at a position. */
  wrote(position) {
    if (this.outputs.at(-1)?.at !== position) this.outputs.push({ at: position });
  }

  // A call of which a process came back before the last step has its answer.
  settle(machine, position) {
    this.settleStep(machine, position);
    for (const pid of [...this.open.keys()]) {
      const process = machine.process(pid);
      if (!process || process.state === "ended") this.open.delete(pid);
      else if (process.state !== "waiting") this.answer(machine, process, position);
    }
  }

  begin(machine, process, position) {
    const number = low(process.registers[A7]);
    const { takes = [] } = CALLS[number] ?? {};
    const line = {
      at: position,
      end: null,
      pid: process.pid,
      number,
      pc: process.pc,
      values: process.registers.slice(A0, A0 + 3),
      parts: takes.map((kind, index) => told(machine, process, kind, index)),
      answer: null,
      bytes: null,
      written: number === WRITE ? machine.written() : 0,
    };
    if (number === WRITE) this.spell(line, bytesAt(machine, process.pid, line.values[1], this.room(low(line.values[2]))));
    if (takes[0] === "path") line.path = new TextDecoder().decode(textAt(machine, process.pid, line.values[0]));
    this.lines.push(line);
    if (number !== EXIT) this.open.set(process.pid, line);
  }

  room(count) {
    return Math.max(0, Math.min(count, MOST_KEPT));
  }

  spell(line, bytes) {
    line.bytes = bytes;
    line.parts[1] = quote(bytes);
  }

  answer(machine, process, position) {
    const line = this.open.get(process.pid);
    if (!line || line.at === position || (process.pc === line.pc && line.number !== EXEC)) return;
    this.open.delete(process.pid);
    const answer = low(process.registers[A0]);
    Object.assign(line, { answer, end: position });
    if (line.number === READ && answer >= 0) this.spell(line, bytesAt(machine, process.pid, line.values[1], this.room(answer)));
    if (line.number === WRITE && position === line.at + 1 && machine.written() > line.written) this.wrote(line.at);
  }
}

// A line as it was at a position: without what came later.
function asOf(line, position) {
  const isDone = line.end !== null && line.end <= position;
  if (isDone || line.number === EXIT) return { ...line, times: 1 };
  return { ...line, answer: null, parts: line.number === READ ? [line.parts[0], hex(line.values[1]), line.parts[2]] : line.parts, times: 1 };
}

// Reads and writes of single bytes, one after the other, are one line.
function joined(lines) {
  const all = [];
  for (const line of lines) {
    const before = all.at(-1);
    if (!isAlike(before, line)) all.push(line);
    else all.splice(-1, 1, joinedWith(before, line));
  }
  return all;
}

function isAlike(before, line) {
  const isSingle = ({ bytes, answer }) => bytes && answer === 1;
  return before && before.number === line.number && isSingle(before) && isSingle(line) && line.bytes.length === 1 && before.parts[0] === line.parts[0];
}

function joinedWith(before, line) {
  const bytes = Uint8Array.of(...before.bytes, ...line.bytes);
  return { ...before, bytes, parts: [before.parts[0], quote(bytes), before.parts[2]], times: before.times + 1 };
}

/** A line of a call. */
export function callText({ number, parts, answer, times, isLost }) {
  const joinedText = times > 1 ? ` (${say("times", { times })})` : "";
  const unanswered = number === EXIT ? "" : isLost ? " = ?" : ` ${say("call-waits")}`;
  return `${callName(number)}(${parts.join(", ")})${answer === null ? unanswered : ` = ${answer}`}${joinedText}`;
}
