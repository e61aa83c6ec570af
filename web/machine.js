// The machine in WebAssembly: the module, and its functions as the methods of a class.
import { Heap } from "./heap.js";
import { say } from "./words.js";

const MAJOR = 1;
const ROOM = 4096;
const ALL = BigInt(ROOM);
const PROCESS_SIZE = 296;
const PC = 256;
const STATE = 280;
const RUNNING = 1;
const EXECUTE = 8;
const ROOT = 1;
const ENTRY_SIZE = 16;
const SIZES = Array.from({ length: ROOM / 4 + 1 }, (_, words) => BigInt(4 * words)); // of the beginnings of a page

const STATES = ["", "running", "ready", "waiting", "ended"];
const KINDS = ["", "directory", "file", "device"];
const OPENED = ["", "file", "console", "device", "read-end", "write-end"];
const DESCRIPTORS = 16;
const DESCRIPTOR_SIZE = 32;
const WALK_SIZE = 32;
const SINCE = 32; // where a wait has the count of ticks
const READ = 5;
const WRITE = 16;

/** Why a machine stops. */
export class Halt extends Error {
  constructor(number) {
    super(say(`halt-${number}`));
    this.number = number;
  }
}

// What the module asks of its host: memory, and the product of two numbers of 128 bits.
function hostOf(loaded) {
  const answer = (result, at) => {
    const view = loaded.heap.view;
    view.setBigUint64(Number(result), at ? 1n : 0n, true);
    view.setBigUint64(Number(result) + 8, BigInt(at), true);
  };
  return {
    rattle_alloc: (result, size) => answer(result, loaded.heap.take(Number(size))),
    rattle_dealloc: (at) => loaded.heap.give(Number(at)),
    rattle_realloc: (result, at, kept, size) => {
      const to = loaded.heap.take(Number(size));
      if (to) {
        loaded.heap.bytes(to, Number(kept)).set(loaded.heap.bytes(Number(at), Number(kept)));
        loaded.heap.give(Number(at));
      }
      answer(result, to);
    },
    __multi3: (result, low, high, otherLow, otherHigh) => {
      const whole = (lower, upper) => (BigInt.asUintN(64, upper) << 64n) | BigInt.asUintN(64, lower);
      const product = whole(low, high) * whole(otherLow, otherHigh);
      const view = loaded.heap.view;
      view.setBigUint64(Number(result), BigInt.asUintN(64, product), true);
      view.setBigUint64(Number(result) + 8, BigInt.asUintN(64, product >> 64n), true);
    },
  };
}

/** Compiles the module. A machine is made of what comes back by `Machine.boot`. */
export async function loadModule(bytes) {
  const loaded = { heap: null, calls: null };
  const { instance } = await WebAssembly.instantiate(bytes, { env: hostOf(loaded) });
  const { exports } = instance;
  loaded.heap = new Heap(exports.memory, Number(exports.__heap_base.value));
  loaded.calls = exports;
  const major = Math.floor(exports.xv6_raw_version() / 1000);
  if (major !== MAJOR) throw new Error(say("module-version", { major, wanted: MAJOR }));
  return loaded;
}

/** A machine. Each call may throw a `Halt`. */
export class Machine {
  /** Boots a machine from the bytes of an image. It throws where they are none. */
  static boot(module, image, frames) {
    const { heap, calls } = module;
    const at = heap.take(image.length);
    const handle = heap.take(16);
    if (!at || !handle) throw new Error(say("boot-4"));
    heap.bytes(at, image.length).set(image);
    const fault = calls.xv6_raw_boot(BigInt(at), BigInt(image.length), frames, BigInt(handle));
    heap.give(at);
    if (fault) {
      heap.give(handle);
      throw new Error(say(`boot-${fault}`));
    }
    return new Machine(module, handle, image.length);
  }

  constructor({ heap, calls }, handle, imageLength) {
    this.heap = heap;
    this.calls = calls;
    this.handle = BigInt(handle);
    this.imageLength = imageLength;
    this.count = heap.take(16);
    this.room = heap.take(ROOM);
    this.countAt = BigInt(this.count);
    this.roomAt = BigInt(this.room);
    this.codePage = { number: 0, asked: 0n };
    this.pc = 0;
    this.pending = [];
    this.taken = 0;
  }

  /** A machine of its own, which goes on from where this one stands. It throws where the browser has no memory. */
  copy() {
    const handle = this.heap.take(16);
    const fault = handle ? this.calls.xv6_raw_copy(this.handle, BigInt(handle)) : 4;
    if (!fault) return new Machine(this, handle, this.imageLength);
    if (handle) this.heap.give(handle);
    throw new Error(say("boot-4"));
  }

  /** The bytes that the machine would leave on the disk if it were saved now. */
  image() {
    return this.copy().save();
  }

  check(number) {
    if (number) throw new Halt(number);
  }

  /** So many steps. */
  steps(times) {
    this.check(this.calls.xv6_raw_steps(this.handle, times));
  }

  /** At most so many steps, and none once nobody runs or is ready. `done` is called with their number, also before a halt. */
  run(most, done) {
    const halt = this.calls.xv6_raw_run(this.handle, most, this.countAt);
    const count = this.heap.view.getUint32(this.count, true);
    done(count);
    this.check(halt);
    return count;
  }

  tick() {
    this.check(this.calls.xv6_raw_tick(this.handle));
  }

  key(byte) {
    this.check(this.calls.xv6_raw_key(this.handle, byte));
  }

  /** Whether no process runs and none is ready, so that a step changes nothing. */
  isIdle() {
    return this.calls.xv6_raw_is_idle(this.handle) !== 0;
  }

  /** The console's bytes since the last call. */
  console() {
    this.hasOutput();
    const bytes = this.pending;
    this.pending = [];
    this.taken += bytes.length;
    return bytes;
  }

  /** Whether there are bytes of the console that nobody took. */
  hasOutput() {
    for (;;) {
      const count = Number(this.calls.xv6_raw_console(this.handle, this.roomAt, ALL));
      if (count === 0) return this.pending.length > 0;
      this.pending.push(...this.heap.bytes(this.room, count));
    }
  }

  /** How many bytes the console has written since this machine was made. */
  written() {
    this.hasOutput();
    return this.taken + this.pending.length;
  }

  /** A process; `null` where there is none with this pid. */
  process(pid) {
    if (this.calls.xv6_raw_process(this.handle, pid, this.roomAt)) return null;
    const view = new DataView(this.heap.memory.buffer, this.room, PROCESS_SIZE);
    const registers = Array.from({ length: 32 }, (_, index) => view.getBigUint64(8 * index, true));
    return {
      registers,
      pc: view.getBigUint64(PC, true),
      size: Number(view.getBigUint64(264, true)),
      pid: view.getUint32(272, true),
      parent: view.getUint32(276, true),
      state: STATES[view.getUint32(STATE, true)],
      call: view.getUint32(284, true),
      status: view.getInt32(288, true),
      killed: view.getUint32(292, true) !== 0,
    };
  }

  /** Whether a process runs; then its pc stands where `word` finds it. */
  isRunning(pid) {
    return this.calls.xv6_raw_process(this.handle, pid, this.roomAt) === 0 && this.heap.view.getUint32(this.room + STATE, true) === RUNNING;
  }

  /** The word at the pc of the process that `isRunning` looked at; 0 where there is none. `pc` has that pc then. */
  word(pid) {
    const { view } = this.heap;
    const low = view.getUint32(this.room + PC, true);
    const number = view.getUint32(this.room + PC + 4, true) * 2 ** 20 + (low >>> 12);
    if (number !== this.codePage.number) this.codePage = { number, asked: BigInt(number) };
    const at = low & (ROOM - 1);
    this.pc = number * ROOM + at;
    if (low % 4 !== 0) return 0;
    const marks = this.calls.xv6_raw_page(this.handle, pid, this.codePage.asked, this.roomAt, SIZES[at / 4 + 1]);
    return marks & EXECUTE ? view.getInt32(this.room + at, true) : 0;
  }

  /** The pid of the process that runs; 0 where none does. `word` finds its word then. */
  running() {
    const pid = this.calls.xv6_raw_running(this.handle);
    if (pid) this.calls.xv6_raw_process(this.handle, pid, this.roomAt);
    return pid;
  }

  /** At most so many instructions of the process that runs, up to a call or a fault; how many. */
  compute(most) {
    return this.calls.xv6_raw_compute(this.handle, most, 0n, 0n);
  }

  /** The open file that a descriptor of a process names; `null` where it names none. */
  descriptor(pid, number) {
    if (this.calls.xv6_raw_descriptor(this.handle, pid, BigInt(number), this.roomAt)) return null;
    const view = new DataView(this.heap.memory.buffer, this.room, DESCRIPTOR_SIZE);
    const [file, kind, offset, readable, writable] = [8, 12, 16, 20, 24].map((at) => view.getUint32(at, true));
    return {
      descriptor: number,
      number: Number(view.getBigUint64(0, true)), // of its node, or of its pipe
      file,
      kind: OPENED[kind],
      offset,
      access: `${readable ? "r" : ""}${writable ? "w" : ""}`,
    };
  }

  descriptors(pid) {
    return Array.from({ length: DESCRIPTORS }, (_, number) => this.descriptor(pid, number)).filter((one) => one);
  }

  /** The call that a process waits in, its first argument, and the count of ticks as it began; `null` where it waits in none. */
  waiting(pid) {
    const process = this.process(pid);
    if (process?.state !== "waiting" || this.calls.xv6_raw_wait(this.handle, pid, this.roomAt)) return null;
    const { view } = this.heap;
    return { call: process.call, first: view.getInt32(this.room, true), since: view.getUint32(this.room + SINCE, true) };
  }

  /** The descriptor that a process waits at, in `read` or `write`; `null` where it waits at none. */
  awaited(pid) {
    const waiting = this.waiting(pid);
    return waiting && [READ, WRITE].includes(waiting.call) ? this.descriptor(pid, waiting.first) : null;
  }

  /** The bytes in a pipe; `null` where there is no such pipe. */
  pipe(number) {
    if (this.calls.xv6_raw_pipe(this.handle, BigInt(number), this.roomAt, ALL, this.countAt)) return null;
    return this.heap.bytes(this.room, Number(this.heap.view.getBigUint64(this.count, true))).slice();
  }

  processes() {
    const all = [];
    let pid = this.calls.xv6_raw_next_pid(this.handle, 0);
    while (pid) {
      all.push(this.process(pid));
      pid = this.calls.xv6_raw_next_pid(this.handle, pid);
    }
    return all;
  }

  /** Whether a page may be read, written and executed, and its bytes; `null` where there is no such page. */
  page(pid, number) {
    const marks = this.calls.xv6_raw_page(this.handle, pid, BigInt(number), this.roomAt, ALL);
    if (!marks) return null;
    return {
      read: (marks & 2) !== 0,
      write: (marks & 4) !== 0,
      execute: (marks & EXECUTE) !== 0,
      bytes: this.heap.bytes(this.room, ROOM).slice(),
    };
  }

  /** The entries of page tables by which an address is found, from level 2 on; `null` where the module doesn't have them. */
  walk(pid, address) {
    if (!this.calls.xv6_raw_walk || this.calls.xv6_raw_walk(this.handle, pid, address, this.roomAt)) return null;
    const view = new DataView(this.heap.memory.buffer, this.room, WALK_SIZE);
    return Array.from({ length: view.getUint32(24, true) }, (_, index) => view.getBigUint64(8 * index, true));
  }

  freeFrames() {
    return this.calls.xv6_raw_free_frames(this.handle);
  }

  /** How many ticks the machine has had since it started: what `uptime` returns. */
  ticks() {
    return this.calls.xv6_raw_ticks(this.handle) >>> 0;
  }

  /** The pid that the next fork gives. */
  comingPid() {
    return this.calls.xv6_raw_coming_pid(this.handle) >>> 0;
  }

  /** A node of the disk; `null` where there is none. */
  stat(inode) {
    this.check(this.calls.xv6_raw_stat(this.handle, BigInt(inode), this.roomAt));
    const view = new DataView(this.heap.memory.buffer, this.room, 12);
    const kind = KINDS[view.getUint32(0, true)];
    return kind ? { inode, kind, links: view.getUint32(4, true), size: view.getUint32(8, true) } : null;
  }

  /** The node with a path from the root on; `null` where there is none. */
  find(path) {
    let node = this.stat(ROOT);
    for (const name of path.split("/").filter(Boolean)) node = node && (this.names(node.inode).find((file) => file.name === name) ?? null);
    return node;
  }

  /** All bytes of a node. */
  read(inode) {
    const whole = new Uint8Array(this.stat(inode)?.size ?? 0);
    let at = 0;
    while (at < whole.length) {
      this.check(this.calls.xv6_raw_read(this.handle, BigInt(inode), BigInt(at), this.roomAt, ALL, this.countAt));
      const count = Number(this.heap.view.getBigUint64(this.count, true));
      if (count === 0) break;
      whole.set(this.heap.bytes(this.room, count), at);
      at += count;
    }
    return whole.subarray(0, at);
  }

  /** The names in a directory, but for `.` and `..`, with what is there. */
  names(directory = ROOT) {
    const bytes = this.read(directory);
    const all = [];
    for (let at = 0; at + ENTRY_SIZE <= bytes.length; at += ENTRY_SIZE) {
      const inode = bytes[at] | (bytes[at + 1] << 8);
      const name = String.fromCharCode(...bytes.subarray(at + 2, at + ENTRY_SIZE)).replace(/\0.*$/s, "");
      if (inode && name !== "." && name !== "..") all.push({ name, ...this.stat(inode) });
    }
    return all;
  }

  inside() {
    return this.heap.view.getBigUint64(Number(this.handle), true);
  }

  /** Ends the machine. No call may follow. */
  close() {
    this.calls.xv6_raw_close(this.inside());
    this.forget();
  }

  /** Ends the machine, and hands back the bytes of its disk. */
  save() {
    const at = this.heap.take(this.imageLength);
    if (!at) throw new Error(say("boot-4"));
    const halt = this.calls.xv6_raw_save(this.inside(), BigInt(at), BigInt(this.imageLength), this.countAt);
    const image = this.heap.bytes(at, this.imageLength).slice();
    this.heap.give(at);
    this.forget();
    this.check(halt);
    return image;
  }

  forget() {
    for (const at of [Number(this.handle), this.count, this.room]) this.heap.give(at);
    this.calls = null;
  }
}
