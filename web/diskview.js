// The disk as it would be saved now: its super block, a map of its blocks, its inodes, and the blocks of one.
import { button, element, replace, stopAtOne } from "./elements.js";
import { bytesText } from "./views.js";
import { counted, grouped, say } from "./words.js";

const KINDS = ["boot", "super", "inodes", "bitmap", "directory", "data", "index", "used", "free"];
const CELL = 7; // pixels
const MOST_TOLD = 40; // numbers of blocks in a text
const BYTES = 8; // in a row

/** The fields of the super block, and how much is free. */
export function showSuper(list, disk) {
  let free = 0;
  for (let block = disk.dataStart; block < disk.super.size; block += 1) free += disk.isUsed(block) ? 0 : 1;
  const fields = { ...disk.super, magic: `0x${disk.super.magic.toString(16)}`, datastart: disk.dataStart };
  const all = [...Object.entries(fields), [say("free-blocks"), grouped(free)], [say("free-inodes"), grouped(disk.super.ninodes - 1 - disk.inodes.length)]];
  replace(list, all.map(([name, value]) => element("div", {}, element("dt", {}, name), element("dd", {}, String(value)))));
}

// The colours of kinds, as the style has them.
function coloursOf(canvas) {
  const style = getComputedStyle(canvas);
  return Object.fromEntries([...KINDS, "changed", "chosen"].map((kind) => [kind, style.getPropertyValue(`--block-${kind}`)]));
}

/** The map: a cell for each block. Returns how many cells a row has. */
export function showMap(canvas, disk, changed, chosen) {
  const cells = Math.max(8, Math.floor(canvas.parentElement.clientWidth / CELL) - 1);
  const ratio = devicePixelRatio || 1;
  const [width, height] = [cells * CELL, Math.ceil(disk.super.size / cells) * CELL];
  Object.assign(canvas, { width: width * ratio, height: height * ratio });
  Object.assign(canvas.style, { width: `${width}px`, height: `${height}px` });
  const pen = canvas.getContext("2d");
  pen.scale(ratio, ratio);
  const colours = coloursOf(canvas);
  for (let block = 0; block < disk.super.size; block += 1) {
    const [x, y] = [(block % cells) * CELL, Math.floor(block / cells) * CELL];
    pen.fillStyle = colours[disk.kindOf(block)];
    pen.fillRect(x, y, CELL - 1, CELL - 1);
    if (changed.has(block)) mark(pen, x, y, colours.changed);
    if (block === chosen) frame(pen, x, y, colours.chosen);
  }
  return cells;
}

function mark(pen, x, y, colour) {
  pen.fillStyle = colour;
  pen.fillRect(x + 2, y + 2, CELL - 5, CELL - 5);
}

function frame(pen, x, y, colour) {
  pen.strokeStyle = colour;
  pen.lineWidth = 2;
  pen.strokeRect(x, y, CELL - 1, CELL - 1);
}

/** The block at a position of the map; `null` where there is none. */
export function blockAt(event, cells, disk) {
  const block = Math.floor(event.offsetY / CELL) * cells + Math.floor(event.offsetX / CELL);
  return event.offsetX < cells * CELL && block < disk.super.size ? block : null;
}

/** What the colours mean, and which blocks changed. */
export function showMapLegend(list, note, disk, changed) {
  const counts = new Map();
  for (let block = 0; block < disk.super.size; block += 1) counts.set(disk.kindOf(block), (counts.get(disk.kindOf(block)) ?? 0) + 1);
  const item = (kind, text) => element("li", { class: `block-${kind}` }, element("i", { "aria-hidden": "true" }), text);
  const items = KINDS.filter((kind) => counts.has(kind)).map((kind) => item(kind, `${say(`block-${kind}`)} ${grouped(counts.get(kind))}`));
  replace(list, [...items, item("changed", say("block-changed"))]);
  const told = [...changed].slice(0, MOST_TOLD).join(", ") + (changed.size > MOST_TOLD ? ", ..." : "");
  note.textContent = changed.size > 0 ? say("changed", { count: counted(changed.size, "block-count"), told }) : say("nothing-changed");
}

const isChanged = (inode, changed) => {
  const below = ({ block, below: all }) => changed.has(block) || (all ?? []).some(below);
  return inode.blocks.some(below);
};

/** The inodes in use. A press of one's button calls `choose(number)`. */
export function showInodes(body, disk, changed, chosen, choose) {
  const buttons = [];
  const rows = disk.inodes.map((inode) => {
    const { number, kind, links, size } = inode;
    const pressed = button({ id: `inode-${number}`, "aria-pressed": number === chosen }, String(number), () => choose(number));
    buttons.push(pressed);
    const kindText = kind === "device" ? say("device-numbers", inode) : say(kind);
    const path = disk.paths.get(number) ?? say("no-path");
    const cells = [element("td", {}, pressed), element("td", {}, path), element("td", {}, kindText)];
    const numbers = [links, grouped(size)].map((value) => element("td", { class: "number" }, String(value)));
    return element("tr", { class: [number === chosen ? "chosen" : "", isChanged(inode, changed) ? "changed" : ""].join(" ").trim() }, ...cells, ...numbers);
  });
  stopAtOne(buttons, buttons.find((one) => one.id === `inode-${chosen}`));
  replace(body, rows);
}

function treeItem({ block, kind, below }, at, changed, chosen, choose, buttons) {
  const text = kind === "index" ? say("index-block", { block }) : String(block);
  const title = kind === "index" ? say("index-title") : say("block-of-file", { at: at.count });
  const words = { id: `block-${block}`, class: changed.has(block) ? "changed" : "", "aria-pressed": block === chosen, title };
  const pressed = button(words, text, () => choose(block));
  buttons.push(pressed);
  if (kind === "data") at.count += 1;
  if (!below) return element("li", {}, pressed);
  const items = below.map((one) => treeItem(one, at, changed, chosen, choose, buttons));
  return element("li", { class: "index" }, pressed, element("ul", { class: "blocks" }, ...items));
}

/** The blocks of a node as a tree. A press of one calls `choose(block)`. */
export function showBlocks(pane, disk, number, changed, chosen, choose) {
  const inode = disk.inodes.find((one) => one.number === number);
  if (!inode) return replace(pane, [element("p", { class: "none" }, say("no-inode"))]);
  const head = say("inode-head", { number, block: inode.block, path: disk.paths.get(number) ?? say("no-path"), size: counted(inode.size, "byte") });
  const buttons = [];
  const at = { count: 0 };
  const items = inode.blocks.map((one) => treeItem(one, at, changed, chosen, choose, buttons));
  stopAtOne(buttons, buttons.find((one) => one.id === `block-${chosen}`));
  const none = () => element("p", { class: "none" }, say("no-blocks"));
  return replace(pane, [element("p", {}, head), items.length > 0 ? element("ul", { class: "blocks" }, ...items) : none()]);
}

/** The bytes of a block, and what it is. */
export function showBlock({ head, bytes }, disk, changed, block) {
  const owner = disk.owners.get(block);
  const whose = owner ? say("block-of", { path: disk.paths.get(owner.inode.number) ?? say("no-path") }) : "";
  const parts = [say("block-number", { block }), say(`block-${disk.kindOf(block)}`), whose, changed.has(block) ? say("block-changed") : ""];
  head.textContent = parts.filter(Boolean).join(" · ");
  bytes.textContent = bytesText(disk.block(block), block * 1024, BYTES);
}
