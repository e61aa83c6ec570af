// The heap that the module asks for its memory.

const PAGE = 65536;
const SMALLEST = 16;

function classOf(size) {
  let room = SMALLEST;
  while (room < size) room *= 2;
  return room;
}

/** Blocks of powers of two behind the module's own memory; those that were freed wait in a list for each size. */
export class Heap {
  constructor(memory, start) {
    this.memory = memory;
    this.end = Math.ceil(start / SMALLEST) * SMALLEST;
    this.free = new Map();
    this.rooms = new Map();
    this.used = 0; // bytes of the blocks that are in use
    this.view = new DataView(memory.buffer);
  }

  /** The address of a new block; 0 where the browser has no memory. */
  take(size) {
    const room = classOf(size);
    const at = this.free.get(room)?.pop() ?? this.extend(room);
    if (!at) return 0;
    this.rooms.set(at, room);
    this.used += room;
    return at;
  }

  give(at) {
    const room = this.rooms.get(at);
    if (room === undefined) throw new Error(`no block begins at ${at}`);
    this.rooms.delete(at);
    this.used -= room;
    if (!this.free.has(room)) this.free.set(room, []);
    this.free.get(room).push(at);
  }

  extend(room) {
    const at = this.end;
    const missing = at + room - this.memory.buffer.byteLength;
    if (missing > 0 && !this.grow(Math.ceil(missing / PAGE))) return 0;
    this.end = at + room;
    return at;
  }

  // A memory that has grown is seen by another window.
  grow(pages) {
    try {
      this.memory.grow(pages);
      this.view = new DataView(this.memory.buffer);
      return true;
    } catch {
      return false;
    }
  }

  bytes(at, count) {
    return new Uint8Array(this.memory.buffer, at, count);
  }
}
