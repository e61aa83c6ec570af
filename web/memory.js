// Reads the memory of programs.

export const PAGE = 4096;
const MOST_TEXT = 127; // a path's bytes
const MOST_LIST = 8;

/** Bytes of a program's memory, as far as there are any. */
export function bytesAt(machine, pid, address, count) {
  const bytes = new Uint8Array(Math.max(0, count));
  let done = 0;
  while (done < count) {
    const at = address + BigInt(done);
    const page = machine.page(pid, at / BigInt(PAGE));
    if (!page?.read) break;
    const from = Number(at % BigInt(PAGE));
    const part = page.bytes.subarray(from, from + count - done);
    bytes.set(part, done);
    done += part.length;
  }
  return bytes.slice(0, done);
}

/** The bytes of a text up to its 0. */
export function textAt(machine, pid, address) {
  const bytes = bytesAt(machine, pid, address, MOST_TEXT + 1);
  const end = bytes.indexOf(0);
  return end < 0 ? bytes : bytes.slice(0, end);
}

/** The texts of a list of arguments. */
export function listAt(machine, pid, address) {
  const texts = [];
  for (let index = 0n; index < MOST_LIST; index += 1n) {
    const pointer = bytesAt(machine, pid, address + 8n * index, 8);
    if (pointer.length < 8) break;
    const at = new DataView(pointer.buffer).getBigUint64(0, true);
    if (at === 0n) break;
    texts.push(textAt(machine, pid, at));
  }
  return texts;
}

/** The word of an instruction; `null` where there is none. */
export function wordAt(machine, pid, address) {
  if (address < 0n || address % 4n !== 0n) return null;
  const page = machine.page(pid, address / BigInt(PAGE));
  return page?.execute && page.read ? new DataView(page.bytes.buffer).getInt32(Number(address % BigInt(PAGE)), true) : null;
}
