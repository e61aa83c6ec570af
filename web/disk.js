// Reads the bytes of a disk's image: its super block, its bitmap, its inodes and the blocks of each.

const BLOCK = 1024;
const INODE = 64;
const PER_BLOCK = BLOCK / INODE;
const NUMBERS = BLOCK / 4; // in a block of numbers
const LARGE = 0x10203041;
const DIRECT = { [LARGE]: 11, 0x10203040: 12 };
const ENTRY = 16;
const KINDS = ["", "directory", "file", "device"];
const ROOT = 1;
const FIELDS = ["magic", "size", "nblocks", "ninodes", "nlog", "logstart", "inodestart", "bmapstart"];

/** A disk, as its image's bytes spell it. */
export class Disk {
  constructor(bytes) {
    this.bytes = bytes;
    this.view = new DataView(bytes.buffer, bytes.byteOffset, bytes.length);
    this.super = Object.fromEntries(FIELDS.map((name, index) => [name, this.view.getUint32(BLOCK + 4 * index, true)]));
    this.dataStart = this.super.size - this.super.nblocks;
    this.inodes = this.allInodes();
    this.paths = this.allPaths();
    this.owners = this.allOwners();
  }

  block(number) {
    return this.bytes.subarray(number * BLOCK, (number + 1) * BLOCK);
  }

  isUsed(block) {
    return (this.bytes[this.super.bmapstart * BLOCK + (block >> 3)] >> (block & 7)) & 1;
  }

  numbers(block) {
    return Array.from({ length: NUMBERS }, (_, index) => this.view.getUint32(block * BLOCK + 4 * index, true));
  }

  allInodes() {
    const all = [];
    for (let number = 1; number < this.super.ninodes; number += 1) {
      const inode = this.inode(number);
      if (inode.kind) all.push(inode);
    }
    return all;
  }

  inode(number) {
    const at = this.super.inodestart * BLOCK + INODE * number;
    const numbers = Array.from({ length: 13 }, (_, index) => this.view.getUint32(at + 12 + 4 * index, true));
    const inode = {
      number,
      kind: KINDS[this.view.getInt16(at, true)] ?? "",
      major: this.view.getInt16(at + 2, true),
      minor: this.view.getInt16(at + 4, true),
      links: this.view.getInt16(at + 6, true),
      size: this.view.getUint32(at + 8, true),
      block: this.super.inodestart + Math.floor(number / PER_BLOCK),
    };
    return { ...inode, blocks: inode.kind === "device" ? [] : this.blocksOf(numbers, inode.size) };
  }

  // The blocks of a node as a tree: data blocks, and blocks of numbers with those that they name.
  blocksOf(numbers, size) {
    let left = Math.ceil(size / BLOCK);
    const take = (block, depth) => {
      if (left === 0 || block === 0) return null;
      if (depth === 0) {
        left -= 1;
        return { block, kind: "data" };
      }
      return { block, kind: "index", below: this.numbers(block).map((number) => take(number, depth - 1)).filter(Boolean) };
    };
    const direct = DIRECT[this.super.magic] ?? 12;
    return numbers.map((number, index) => take(number, Math.max(0, index - direct + 1))).filter(Boolean);
  }

  content(inode) {
    const blocks = [];
    const add = ({ block, below }) => (below ? below.forEach(add) : blocks.push(block));
    inode.blocks.forEach(add);
    const all = new Uint8Array(blocks.length * BLOCK);
    blocks.forEach((block, index) => all.set(this.block(block), index * BLOCK));
    return all.subarray(0, inode.size);
  }

  entries(inode) {
    const bytes = this.content(inode);
    const all = [];
    for (let at = 0; at + ENTRY <= bytes.length; at += ENTRY) {
      const number = bytes[at] | (bytes[at + 1] << 8);
      const name = new TextDecoder().decode(bytes.subarray(at + 2, at + ENTRY)).replace(/\0.*$/s, "");
      if (number && name !== "." && name !== "..") all.push({ number, name });
    }
    return all;
  }

  // The first path of each inode.
  allPaths() {
    const byNumber = new Map(this.inodes.map((inode) => [inode.number, inode]));
    const paths = new Map([[ROOT, "/"]]);
    for (const [number, path] of paths) {
      const inode = byNumber.get(number);
      if (inode?.kind !== "directory") continue;
      for (const entry of this.entries(inode)) if (!paths.has(entry.number)) paths.set(entry.number, `${path === "/" ? "" : path}/${entry.name}`);
    }
    return paths;
  }

  // Whose each block of a node is.
  allOwners() {
    const owners = new Map();
    for (const inode of this.inodes) {
      const add = ({ block, kind, below }) => {
        owners.set(block, { inode, kind });
        below?.forEach(add);
      };
      inode.blocks.forEach(add);
    }
    return owners;
  }

  /** What a block is: `boot`, `super`, `inodes`, `bitmap`, `directory`, `data`, `index`, `free`, or `used` where no node names it. */
  kindOf(block) {
    if (block < 2) return ["boot", "super"][block];
    if (block < this.super.bmapstart) return "inodes";
    if (block < this.dataStart) return "bitmap";
    const owner = this.owners.get(block);
    if (!owner) return this.isUsed(block) ? "used" : "free";
    if (owner.kind === "index") return "index";
    return owner.inode.kind === "directory" ? "directory" : "data";
  }

  /** The blocks whose bytes differ from those of another image of the same size. */
  changedFrom(bytes) {
    const changed = new Set();
    const words = (all) => new Uint32Array(all.slice().buffer);
    const [now, before] = [words(this.bytes), words(bytes)];
    for (let index = 0; index < now.length; index += 1) if (now[index] !== before[index]) changed.add(Math.floor(index / NUMBERS));
    return changed;
  }
}
