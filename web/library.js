// What the module does without a machine: it assembles texts and makes images.
import { rowsOf } from "./rows.js";
import { say } from "./words.js";

const MOST_PROGRAM = 274_432; // bytes
const MOST_REPORT = 1 << 20;
const NO_MEMORY = 4;
const MOST_LOCATION = 4096;
const ENTRY_SIZE = 24;
const KINDS = { dir: 1, file: 2, dev: 3 };

const toBytes = (text) => new TextEncoder().encode(text);

/** Whether the module assembles texts and makes images of their programs. */
export const canWrite = ({ calls }) => ["asm", "as", "put", "mkfs"].every((name) => `xv6_raw_${name}` in calls);

// Calls `act` with the addresses of blocks: one has the bytes that are wanted there, or room for that many.
function withBlocks(heap, wanted, act) {
  const blocks = wanted.map((one) => heap.take(one.length ?? one));
  try {
    if (blocks.includes(0)) throw new Error(say("boot-4"));
    wanted.forEach((one, index) => one.length && heap.bytes(blocks[index], one.length).set(one));
    return act(...blocks);
  } finally {
    for (const block of blocks) if (block) heap.give(block);
  }
}

// An address or a length as the module takes it.
const big = (...numbers) => numbers.map(BigInt);
const numberAt = (heap, at) => Number(heap.view.getBigUint64(at, true));
const textAt = (heap, at, count) => new TextDecoder().decode(heap.bytes(at, count).slice());

function refuse(number) {
  if (number) throw new Error(say(number === NO_MEMORY ? "boot-4" : `library-${number}`));
}

// What comes of a text with faults.
const refused = (faults) => ({ program: null, rows: [], faults });

// What `xv6 asm` makes of a text.
function assembleSmall({ heap, calls }, text) {
  const bytes = toBytes(text);
  return withBlocks(heap, [bytes, MOST_PROGRAM, 16], (from, out, told) => {
    const number = calls.xv6_raw_asm(...big(from, bytes.length, out, MOST_PROGRAM, told));
    if (number === NO_MEMORY) refuse(number);
    if (number) return refused([{ line: numberAt(heap, told + 8), column: 0, text: say(`library-${number}`) }]);
    const program = heap.bytes(out, numberAt(heap, told)).slice();
    return { program, rows: rowsOf(text, program), faults: [] };
  });
}

// A line of a report: two numbers, and words.
function reported(line) {
  const [, first, second, text] = line.match(/^(\d+) (\d+) (.*)$/);
  return [Number(first), Number(second), text];
}

const isLabel = (words) => words.endsWith(":");

// What `xv6 as` makes of a text.
function assembleLarge({ heap, calls }, text) {
  const bytes = toBytes(text);
  return withBlocks(heap, [bytes, MOST_PROGRAM, MOST_REPORT, 16], (from, out, report, told) => {
    const number = calls.xv6_raw_as(...big(from, bytes.length, out, MOST_PROGRAM, report, MOST_REPORT, told));
    if (number === NO_MEMORY) refuse(number);
    const all = textAt(heap, report, Math.min(numberAt(heap, told + 8), MOST_REPORT));
    const lines = all.split("\n").filter(Boolean).map(reported);
    if (number) return refused(lines.map(([line, column, words]) => ({ line, column, text: words })));
    const kept = lines.filter(([, , words]) => !isLabel(words));
    const rows = kept.map(([line, address, words]) => ({ line, address, text: words }));
    return { program: heap.bytes(out, numberAt(heap, told)).slice(), rows, faults: [] };
  });
}

/**
 * Assembles a text in a language, `asm` or `as`: its program's file, or null; the rows that its lines became, each with
 * line, address and text; and what is wrong with it, each with line, column (0: the whole line) and text.
 */
export const assemble = (module, language, text) => (language === "as" ? assembleLarge : assembleSmall)(module, text);

/** What a program's file says of an address, as `sum+0x10 (oops.c:4)`; empty where it says nothing of it. */
export function locate({ heap, calls }, file, address) {
  return withBlocks(heap, [file, MOST_LOCATION, 8], (at, out, count) => {
    refuse(calls.xv6_raw_locate(...big(at, file.length), BigInt.asUintN(64, address), ...big(out, MOST_LOCATION, count)));
    return textAt(heap, out, Math.min(numberAt(heap, count), MOST_LOCATION));
  });
}

/** An image with one more file, or with another one at its path. */
export function put({ heap, calls }, image, path, bytes) {
  const name = toBytes(path);
  return withBlocks(heap, [image, name, bytes], (at, from, contents) => {
    refuse(calls.xv6_raw_put(...big(at, image.length, from, name.length, contents, bytes.length)));
    return heap.bytes(at, image.length).slice();
  });
}

function entryOf(entry) {
  const bytes = new Uint8Array(ENTRY_SIZE);
  const view = new DataView(bytes.buffer);
  view.setBigUint64(0, BigInt(toBytes(entry.path).length), true);
  view.setBigUint64(8, BigInt(entry.bytes?.length ?? 0), true);
  view.setUint32(16, KINDS[entry.kind], true);
  view.setUint16(20, entry.major ?? 0, true);
  view.setUint16(22, entry.minor ?? 0, true);
  return bytes;
}

function joined(parts) {
  const whole = new Uint8Array(parts.reduce((sum, part) => sum + part.length, 0));
  let at = 0;
  for (const part of parts) {
    whole.set(part, at);
    at += part.length;
  }
  return whole;
}

/** An image of the entries of a manifest: `{ kind, path, bytes, major, minor }`, of kind `dir`, `file` or `dev`. */
export function mkfs({ heap, calls }, entries, { size, inodes }) {
  const heads = joined(entries.map(entryOf));
  const bytes = joined(entries.flatMap((entry) => [toBytes(entry.path), entry.bytes ?? new Uint8Array()]));
  const room = 1024 * size;
  return withBlocks(heap, [heads, bytes, room], (first, contents, image) => {
    heap.bytes(image, room).fill(0);
    refuse(calls.xv6_raw_mkfs(...big(first, entries.length, contents, bytes.length), inodes, ...big(image, room)));
    return heap.bytes(image, room).slice();
  });
}
