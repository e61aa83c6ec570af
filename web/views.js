// What the page shows of a machine: its processes, and of one of them the registers, the instructions, the calls and the pages.
import { callName, callText } from "./calls.js";
import { REGISTERS, disassemble } from "./disassembly.js";
import { button, element, replace, stopAtOne } from "./elements.js";
import { PAGE, wordAt } from "./memory.js";
import { say } from "./words.js";

const BEFORE = 6; // instructions
const AFTER = 12;
const MOST_CALLS = 60;
const MOST_PAGES = 512;
const ROW = 16;

export const digits = (value, count) => value.toString(16).padStart(count, "0");

// What a process waits for, in words, and who could end that.
function waitText({ kind, pipe, pids = [], tick, call }) {
  return say(`waits-${kind}`, { pipe, pids: pids.join(", "), tick, call: call === undefined ? "" : callName(call) });
}

/** What a process is doing, in words; `wait` is what it waits for. */
export function stateText(process, wait) {
  const killed = process.killed ? `, ${say("killed")}` : "";
  switch (process.state) {
    case "waiting":
      return (wait ? waitText(wait) : say("waiting")) + killed;
    case "ended":
      return say("ended-with", { status: process.status });
    default:
      return say(process.state) + killed;
  }
}

// The processes as a tree: each after its parent, with its depth.
function asTree(processes) {
  const pids = new Set(processes.map(({ pid }) => pid));
  const rows = [];
  const add = (process, depth) => {
    rows.push({ process, depth });
    for (const child of processes) if (child.parent === process.pid && child !== process) add(child, depth + 1);
  };
  for (const process of processes) if (!pids.has(process.parent) || process.parent === process.pid) add(process, 0);
  return rows;
}

/** The processes as a tree. `nameOf(pid)` is the name of its program, `waitOf(pid)` what it waits for; a press of one calls `choose(pid)`. */
export function showProcesses(body, processes, { nameOf, waitOf, chosen, choose }) {
  const buttons = [];
  const rows = asTree(processes).map(({ process, depth }) => {
    const { pid } = process;
    const isChosen = pid === chosen;
    const pressed = button({ id: `pid-${pid}`, "aria-pressed": isChosen }, `${pid} ${nameOf(pid)}`.trim(), () => choose(pid));
    buttons.push(pressed);
    const name = element("td", { style: `padding-left: ${0.3 + 1.2 * depth}em` }, depth > 0 ? "└ " : "", pressed);
    const state = element("td", { class: "state" }, stateText(process, waitOf(pid)));
    return element("tr", { class: isChosen ? "chosen" : "", "data-state": process.state }, name, state);
  });
  stopAtOne(buttons, buttons.find((one) => one.id === `pid-${chosen}`));
  replace(body, rows);
}

/** The choice of the process that is looked at. */
export function showPids(select, processes, nameOf, chosen) {
  replace(select, processes.map(({ pid }) => element("option", { value: pid }, say("process-name", { pid, name: nameOf(pid) }))));
  select.value = String(chosen);
}

/** The registers; those that differ from the values of before are marked. */
export function showRegisters(list, process, before) {
  const items = process.registers.map((value, index) => {
    const isChanged = before && before[index] !== value;
    return element("li", { class: isChanged ? "changed" : "" }, element("b", {}, REGISTERS[index]), element("span", {}, value.toString(16)));
  });
  replace(list, items);
}

// Where an instruction is: its function and line at the pc, and the name of a function where one begins.
function placeItems(place, isCurrent) {
  const isStart = place !== "" && !/\+0x[0-9a-f]+(?: \(|$)/.test(place);
  return isCurrent || isStart ? [element("em", {}, place)] : [];
}

/**
 * The instructions around the pc, with what `placeOf(address)` says. A press of one calls `toggle(address)`, which sets a breakpoint or takes
 * it away.
 */
export function showCode(list, machine, process, { breaks, placeOf, toggle }) {
  const items = [];
  const buttons = [];
  for (let position = -BEFORE; position <= AFTER; position += 1) {
    const address = process.pc + BigInt(4 * position);
    const word = wordAt(machine, process.pid, address);
    if (word === null && position !== 0) continue;
    const isBroken = breaks.has(Number(address));
    const title = say(isBroken ? "break-off" : "break-on", { address: `0x${address.toString(16)}` });
    const words = { class: "mark", id: `code-${position}`, "aria-pressed": isBroken, title, "aria-label": title };
    const mark = button(words, isBroken ? "●" : "○", () => toggle(Number(address)));
    buttons.push(mark);
    const current = position === 0 ? { class: "current", "aria-current": "true" } : {};
    const text = word === null ? say("no-instruction") : disassemble(word);
    items.push(element("li", current, mark, element("i", {}, `${digits(address, 5)}  `), text, ...placeItems(placeOf(address), position === 0)));
  }
  stopAtOne(buttons, buttons.find((one) => one.id === "code-0"));
  replace(list, items);
  showCurrent(list, list.querySelector(".current"));
}

// Scrolls a list alone, and not the page.
function showCurrent(list, current) {
  const isSeen = current && current.offsetTop >= list.scrollTop && current.offsetTop + current.offsetHeight <= list.scrollTop + list.clientHeight;
  if (current && !isSeen) list.scrollTop = current.offsetTop - list.clientHeight / 3;
}

/** The last calls, the newest first, and among them the faults. */
export function showCalls(list, lines, faults) {
  const told = faults.map(({ at, text }) => ({ at, item: element("li", { class: "fault" }, text) }));
  const all = lines.map((line) => ({ at: line.at, item: element("li", {}, callText(line)) })).concat(told);
  const items = all.sort((one, two) => two.at - one.at).slice(0, MOST_CALLS).map(({ item }) => item);
  replace(list, items.length > 0 ? items : [element("li", { class: "none" }, say("no-calls"))]);
}

export const markText = (page) => (page.read ? "r" : "-") + (page.write ? "w" : "-") + (page.execute ? "x" : "-");

const wordsOf = (bytes) => new Uint32Array(bytes.buffer);

function isAlike(words, others) {
  for (let index = 0; index < words.length; index += 1) if (words[index] !== others[index]) return false;
  return true;
}

// The processes whose page of the same number has the same bytes, the least pid first.
function holdersOf(machine, process, number, page, processes) {
  const words = wordsOf(page.bytes);
  const alike = processes.filter(({ pid, state }) => {
    if (pid === process.pid || state === "ended") return false;
    const other = machine.page(pid, number);
    return other?.read && isAlike(words, wordsOf(other.bytes));
  });
  return [process.pid, ...alike.map(({ pid }) => pid)].sort((a, b) => a - b);
}

function pageClass(page, holders) {
  if (!page.read) return "guard";
  return holders.length > 1 ? `shared hue-${holders[0] % 6}` : "own";
}

function pageTitle(page, number, holders) {
  const where = say("page-from", { number, address: `0x${digits(number * PAGE, 4)}` });
  if (!page.read) return `${where}: ${say("guard")}`;
  const others = holders.length > 1 ? `; ${say("same-bytes", { pids: holders.join(", ") })}` : "";
  return `${where}: ${markText(page)}${others}`;
}

/** The pages as a picture, and what its colours mean. A press of a page's button calls `choose(number)`. */
export function showPages({ picture, legend }, machine, process, processes, chosen, choose) {
  const groups = new Map();
  const buttons = [];
  const count = Math.ceil(process.size / PAGE);
  for (let number = 0; number < Math.min(count, MOST_PAGES); number += 1) {
    const page = machine.page(process.pid, number);
    if (!page) continue;
    const holders = page.read ? holdersOf(machine, process, number, page, processes) : [];
    const kind = pageClass(page, holders);
    if (holders.length > 1) groups.set(holders.join(", "), kind);
    const title = pageTitle(page, number, holders);
    const words = { id: `page-${number}`, class: kind, title, "aria-label": title, "aria-pressed": number === chosen };
    const pressed = button(words, element("b", {}, String(number)), () => choose(number));
    pressed.append(element("span", {}, markText(page)));
    buttons.push(pressed);
  }
  replace(picture, stopAtOne(buttons, buttons.find((one) => one.id === `page-${chosen}`)));
  showLegend(legend, groups, count);
}

function showLegend(legend, groups, count) {
  const items = [element("li", { class: "own" }, say("own-page")), element("li", { class: "guard" }, say("guard"))];
  for (const [holders, kind] of groups) items.push(element("li", { class: kind }, say("same-bytes", { pids: holders })));
  if (count > MOST_PAGES) items.push(element("li", {}, say("more-pages", { count: count - MOST_PAGES })));
  replace(legend, items);
}

const letter = (byte) => (byte >= 0x20 && byte < 0x7f ? String.fromCharCode(byte) : ".");

/** The bytes of something, in rows. */
export function bytesText(bytes, start = 0, row = ROW) {
  const rows = [];
  for (let at = 0; at < bytes.length; at += row) {
    const part = [...bytes.subarray(at, at + row)];
    const numbers = part.map((byte) => digits(byte, 2)).join(" ");
    rows.push(`${digits(start + at, 5)}  ${numbers.padEnd(3 * row)} ${part.map(letter).join("")}`);
  }
  return rows.join("\n");
}

/** The lines of ^P, as `xv6 live` has them. */
export function processLines(processes) {
  const words = { running: "run", ready: "runble", waiting: "sleep", ended: "zombie" };
  return `\n${processes.map(({ pid, state, size }) => `${pid} ${words[state]} ${size}\n`).join("")}`;
}
