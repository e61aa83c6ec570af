// What a process holds: its descriptors, the pipes, and the tables by which an address is found.
import { pathOf, pipesOf } from "./descriptors.js";
import { quote } from "./calls.js";
import { element, replace } from "./elements.js";
import { PAGE } from "./memory.js";
import { bytesText, digits, markText } from "./views.js";
import { say } from "./words.js";

const SHOWN = 24; // bytes of a pipe
const TABLE = 512; // entries
const BYTES = 8; // in a row of a page
const ROOT = 1;

const hex = (value) => `0x${value.toString(16)}`;

function openedText(machine, { kind, number, offset, access }) {
  if (kind === "read-end" || kind === "write-end") return say(kind === "read-end" ? "reads-pipe" : "writes-pipe", { number });
  const path = pathOf(machine, number) || (number === ROOT ? "/" : say("inode-number", { number }));
  return say(kind === "file" ? "opened" : "opened-device", { path, access: say(`flags-${access}`), offset });
}

/** The descriptors of a process. */
export function showDescriptors(list, machine, pid) {
  const items = machine.descriptors(pid).map((held) => element("li", {}, element("b", {}, String(held.descriptor)), openedText(machine, held)));
  replace(list, items.length > 0 ? items : [element("li", { class: "none" }, say("no-descriptors"))]);
}

function holderItem({ pid, descriptors, waits }, nameOf, word) {
  const text = say("holder", { pid, name: nameOf(pid), descriptors: descriptors.join(", ") });
  return element("li", { class: waits ? "waits" : "" }, text, ...(waits ? [element("em", {}, say(word))] : []));
}

function pipeFigure(pipe, nameOf) {
  const side = (holders, word) => {
    const items = holders.map((holder) => holderItem(holder, nameOf, word));
    return element("ul", {}, ...(items.length > 0 ? items : [element("li", { class: "none" }, say("nobody"))]));
  };
  const count = say("pipe-bytes", { count: pipe.bytes.length, room: pipe.room });
  const bytes = element("code", {}, pipe.bytes.length > 0 ? quote(pipe.bytes, SHOWN) : "");
  const meter = element("meter", { min: 0, max: pipe.room, value: pipe.bytes.length, "aria-label": count });
  const between = element("div", { class: "between" }, bytes, meter, element("span", {}, count));
  const head = element("figcaption", {}, say("pipe", { number: pipe.number }));
  const arrow = () => element("b", { "aria-hidden": "true" }, "→");
  const [writers, readers] = [side(pipe.writers, "waits-for-room"), side(pipe.readers, "waits-for-bytes")];
  return element("figure", { class: "pipe" }, head, writers, arrow(), between, arrow(), readers);
}

/** The pipes as a picture: who holds which end, the bytes in between, and who waits. */
export function showPipes(pane, machine, processes, nameOf) {
  const pipes = pipesOf(machine, processes);
  replace(pane, pipes.length > 0 ? pipes.map((pipe) => pipeFigure(pipe, nameOf)) : [element("p", { class: "none" }, say("no-pipes"))]);
}

const FRAME_PAGE = 0x3fffffen; // of the trap frame, which the kernel has for each process
const FRAME_TABLE = 255; // its entry of the first table, and in the second the last

const flagsOf = ({ read, write, execute }) => (read ? `V R${write ? " W" : ""}${execute ? " X" : ""} U A D` : "V R W A D");

// Which tables there are: one for each 512 pages of the process, and two for the trap frame.
function hasTables(pages, first, second) {
  if (first === FRAME_TABLE) return [true, second === TABLE - 1];
  return [first === 0 && pages > 0, first === 0 && second < Math.ceil(pages / TABLE)];
}

function leafText(page, number) {
  if (page) return flagsOf(page);
  return number === FRAME_PAGE ? say("entry-frame") : say("entry-none");
}

// The entries of the three tables that an address is found by.
function entriesOf(process, page, address) {
  const [second, first] = [1, 2].map((level) => Number((address >> BigInt(12 + 9 * level)) & 511n));
  const [hasFirst, hasSecond] = hasTables(Math.ceil(process.size / PAGE), first, second);
  const rows = [{ level: 2, index: first, text: say(hasFirst ? "entry-table" : "entry-none") }];
  if (hasFirst) rows.push({ level: 1, index: second, text: say(hasSecond ? "entry-table" : "entry-none") });
  if (hasSecond) rows.push({ level: 0, index: Number((address >> 12n) & 511n), text: leafText(page, address >> 12n) });
  return rows;
}

const FLAGS = "VRWXUGAD";
const LEAF = 0b1110n; // R, W or X

// An entry of a page table: its flags, and the frame or table that it names.
function entryText(entry) {
  if (!(entry & 1n)) return say("entry-none");
  const flags = [...FLAGS].filter((_, bit) => (entry >> BigInt(bit)) & 1n).join(" ");
  return say(entry & LEAF ? "entry-to-frame" : "entry-to-table", { flags, frame: hex((entry >> 10n) & ((1n << 44n) - 1n)) });
}

// The rows of a walk: as the machine has them, or as they follow from the process's size and page.
function rowsOfWalk(machine, process, page, address) {
  const entries = machine.walk(process.pid, address);
  if (!entries) return entriesOf(process, page, address);
  const indexOf = (level) => Number((address >> BigInt(12 + 9 * level)) & 511n);
  return entries.map((entry, at) => ({ level: 2 - at, index: indexOf(2 - at), text: entryText(entry) }));
}

/** The address that a text names: a number, or a register's. `null` where it names none. */
export function addressOf(text, process, registers) {
  const word = text.trim();
  if (word === "pc") return process.pc;
  const register = registers.indexOf(word);
  if (register >= 0) return process.registers[register];
  return /^(0x[0-9a-f]{1,16}|\d{1,19})$/i.test(word) ? BigInt(word) : null;
}

/** The walk of an address: its parts, the entry of each table, and the bytes there. */
export function showWalk({ pane, bytes }, machine, process, address) {
  const isIn = address >> 38n === 0n;
  const page = isIn ? machine.page(process.pid, address / BigInt(PAGE)) : null;
  const offset = Number(address % BigInt(PAGE));
  const rows = isIn ? rowsOfWalk(machine, process, page, address) : [];
  const items = rows.map(({ level, index, text }) => element("li", {}, element("b", {}, say("table-entry", { level, index })), text));
  const found = () => say("walk-found", { page: Number(address / BigInt(PAGE)), marks: markText(page), offset: hex(offset) });
  const end = page ? found() : say(isIn ? "walk-none" : "walk-outside");
  const indexes = [2, 1, 0].map((level) => (address >> BigInt(12 + 9 * level)) & 511n);
  const bits = `${digits(address >> 39n, 1)} | ${indexes.join(" | ")} | ${hex(offset)}`;
  replace(pane, [element("p", { class: "bits" }, `${hex(address)} = ${bits}`), element("ol", { class: "walk" }, ...items), element("p", {}, end)]);
  bytes.textContent = page ? bytesText(page.bytes, Number(address) - offset, BYTES) : "";
  return offset;
}
