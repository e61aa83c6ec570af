// The programs that processes run, those of the files whose bytes are in their memory, and the names of their addresses.

const FIRST_HEADER = 64;
const LOADED = 1;
const LEAST = 16; // bytes that have to be the same
const MOST = 4096;

const isProgram = (bytes) => bytes.length > FIRST_HEADER && bytes[0] === 0x7f && bytes[1] === 0x45 && bytes[2] === 0x4c && bytes[3] === 0x46;

/** The first part that a program's file loads: its page, and the bytes there, up to so many. */
export function firstPart(bytes, most = MOST) {
  const view = new DataView(bytes.buffer, bytes.byteOffset, bytes.length);
  const [headers, count] = [Number(view.getBigUint64(32, true)), view.getUint16(56, true)];
  for (let at = headers; at < headers + 56 * count && at + 56 <= bytes.length; at += 56) {
    if (view.getUint32(at, true) !== LOADED) continue;
    const [from, address, size] = [8, 16, 32].map((by) => Number(view.getBigUint64(at + by, true)));
    return { page: Math.floor(address / MOST), bytes: bytes.subarray(from, from + Math.min(size, most)) };
  }
  return null;
}

function programsIn(machine, directory, above, all, depth) {
  for (const { name, kind, inode } of machine.names(directory)) {
    const path = `${above}/${name}`;
    const file = kind === "file" ? machine.read(inode) : null;
    const part = file && isProgram(file) ? firstPart(file) : null;
    if (part) all.push({ name, path, file, places: new Map(), ...part });
    if (kind === "directory" && depth > 0) programsIn(machine, inode, path, all, depth - 1);
  }
  return all;
}

const fromRoot = (path) => `/${path.replace(/^(\.?\/)+/, "")}`;

function sameBytes(one, two) {
  let same = 0;
  while (same < one.length && one[same] === two[same]) same += 1;
  return same;
}

/** The programs of a disk, which are looked up anew after `forget`. `locate(file, address)` is what a file says of an address. */
export class Names {
  constructor(locate) {
    this.locate = locate;
    this.programs = null;
  }

  forget() {
    this.programs = null;
  }

  all(machine) {
    this.programs ??= programsIn(machine, undefined, "", [], 3);
    return this.programs;
  }

  /** The program whose bytes a process has; `null` where no file has them. */
  programOf(machine, pid) {
    let [best, most] = [null, LEAST - 1];
    const pages = new Map();
    for (const program of this.all(machine)) {
      const { page, bytes } = program;
      if (!pages.has(page)) pages.set(page, machine.page(pid, page)?.bytes ?? new Uint8Array());
      const same = sameBytes(bytes, pages.get(page));
      if (same > most) [best, most] = [program, same];
    }
    return best;
  }

  /** The program of a path, which is one from the root if it begins with no slash; `null` where there is none. */
  programAt(machine, path) {
    return this.all(machine).find((program) => program.path === fromRoot(path)) ?? null;
  }

  /** What a program says of an address, as `sum+0x10 (oops.c:4)`; empty where it says nothing of it. */
  placeIn(program, address) {
    if (!program.places.has(address)) program.places.set(address, this.locate(program.file, address));
    return program.places.get(address);
  }
}
