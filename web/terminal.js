// The terminal: what the console wrote, and what is typed at it.
import { element } from "./elements.js";
import { say } from "./words.js";

const MOST_CELLS = 20_000;
const CONTROL = { d: 0x04, h: 0x08, u: 0x15 };
const NAMED = { Enter: 0x0a, Backspace: 0x7f };
const BACKSPACE = 0x08;
const HELD = " "; // the text field holds a blank, so that a phone's keyboard has something to take back
const PRINTED = [0x09, 0x0a];
const MOST_SPOKEN = 40; // lines that a screen reader finds

/** The cells of a screen. The console writes text, line ends, and a backspace, a blank and a backspace for each key that is taken back. */
class Cells {
  constructor() {
    this.cells = [];
    this.decoder = new TextDecoder();
  }

  write(bytes) {
    for (const letter of this.decoder.decode(Uint8Array.from(bytes), { stream: true })) this.put(letter);
    if (this.cells.length > MOST_CELLS) this.cells.splice(0, MOST_CELLS / 2);
  }

  put(letter) {
    const code = letter.codePointAt(0);
    if (code === BACKSPACE) this.cells.pop();
    else if (code >= 0x20 || PRINTED.includes(code)) this.cells.push(letter);
    else this.cells.push(`^${String.fromCharCode(code + 0x40)}`);
  }

  get text() {
    return this.cells.join("");
  }
}

/** The byte of a key that was pressed; `null` where it is none of the console's. */
function byteOf({ key, ctrlKey, altKey, metaKey }) {
  if (altKey || metaKey) return null;
  if (ctrlKey) return CONTROL[key.toLowerCase()] ?? null;
  return NAMED[key] ?? null;
}

const lineEnds = (text) => text.replace(/\r\n?/g, "\n");

/** A terminal in the page. It calls `type(bytes)`, `showProcesses()` and `tell(text)`. */
export class Terminal {
  constructor({ frame, screen, keys, spoken }, { type, showProcesses, tell }) {
    Object.assign(this, { frame, screen, keys, spoken, type, showProcesses, tell });
    this.clear();
    keys.addEventListener("keydown", (event) => this.press(event));
    keys.addEventListener("input", (event) => event.isComposing || this.take());
    keys.addEventListener("compositionend", () => this.take());
    keys.addEventListener("focus", () => this.hold());
    keys.addEventListener("paste", (event) => this.paste(event));
    frame.addEventListener("mouseup", () => this.focusUnlessSelected());
    document.addEventListener("keydown", (event) => this.wake(event));
  }

  clear() {
    this.cells = new Cells();
    this.line = "";
    this.spoken.replaceChildren();
    this.show();
  }

  /** Shows other bytes in position of all. */
  reset(bytes) {
    this.cells = new Cells();
    this.cells.write(bytes);
    this.line = "";
    this.show();
  }

  write(bytes) {
    if (bytes.length === 0) return;
    this.cells.write(bytes);
    this.show();
    this.speak(bytes);
  }

  // Whole lines, and a prompt, are read out by a screen reader.
  speak(bytes) {
    const cells = new Cells();
    cells.write([...new TextEncoder().encode(this.line), ...bytes]);
    const lines = cells.text.split("\n");
    this.line = lines.pop();
    if (this.line === "$ ") lines.push(this.line);
    const shown = lines.filter((line) => line.trim() !== "").slice(-MOST_SPOKEN);
    this.spoken.append(...shown.map((line) => element("div", {}, line)));
    while (this.spoken.childElementCount > MOST_SPOKEN) this.spoken.firstChild.remove();
  }

  /** Lines of the page's own among the console's. */
  note(lines) {
    this.cells.write([...new TextEncoder().encode(lines)]);
    this.show();
  }

  get text() {
    return this.cells.text;
  }

  show() {
    this.screen.textContent = this.cells.text;
    this.frame.scrollTop = this.frame.scrollHeight;
  }

  focus() {
    this.keys.focus({ preventScroll: true });
  }

  select() {
    document.getSelection().selectAllChildren(this.screen);
  }

  focusUnlessSelected() {
    if (document.getSelection().isCollapsed) this.focus();
  }

  // A letter that is typed where nothing has the focus is the terminal's.
  wake(event) {
    const isLetter = event.key.length === 1 && !event.ctrlKey && !event.metaKey && !event.altKey && event.key !== "?";
    if (document.activeElement === document.body && isLetter && this.frame.offsetParent !== null) this.focus();
  }

  press(event) {
    if (event.isComposing) return undefined;
    const control = event.ctrlKey && !event.altKey ? event.key.toLowerCase() : "";
    if (control === "c") return this.interrupt();
    const byte = byteOf(event);
    if (control !== "p" && byte === null) return undefined;
    event.preventDefault();
    return control === "p" ? this.showProcesses() : this.type([byte]);
  }

  interrupt() {
    if (document.getSelection().isCollapsed) {
      this.tell(say("no-interrupt"));
    }
  }

  hold() {
    this.keys.value = HELD;
    this.keys.setSelectionRange(HELD.length, HELD.length);
  }

  // Letters come by the text field, so that each way of writing them works.
  take() {
    const { value } = this.keys;
    this.hold();
    if (value === "") return this.type([NAMED.Backspace]);
    return this.type([...new TextEncoder().encode(lineEnds(value.replace(HELD, "")))]);
  }

  paste(event) {
    event.preventDefault();
    this.type([...new TextEncoder().encode(lineEnds(event.clipboardData.getData("text")))]);
  }
}
