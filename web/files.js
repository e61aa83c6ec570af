// The files of the disk as a tree, and a file that is put on it.
import { button, download, element, replace, stopAtOne } from "./elements.js";
import { say } from "./words.js";

const MOST_DEPTH = 16;
const MOST_UPLOAD = 1 << 20;
const HELPER = "unhex";
const ROW = 60; // bytes, by two digits each
const NAME = /^[\w.+-]{1,14}$/;
const END_OF_INPUT = "\x04";

function fileItem(machine, file, path, look) {
  const show = button({ class: "name", id: `show-${path}` }, file.name, () => look(path, machine().read(file.inode)));
  const save = button({ id: `save-${path}`, "aria-label": say("save-path", { path }) }, say("save"), () => download(file.name, machine().read(file.inode)));
  const links = file.links > 1 ? say("file-links", { links: file.links }) : "";
  return element("li", { class: "file" }, show, element("span", {}, say("file-size", { size: file.size, inode: file.inode }) + links), save);
}

function otherItem(file) {
  const text = say("other-file", { kind: say(file.kind), inode: file.inode });
  return element("li", { class: "file" }, element("b", { class: "name" }, file.name), element("span", {}, text));
}

function directoryItem(machine, file, path, look, depth) {
  const list = element("ul", {}, ...itemsOf(machine, file.inode, `${path}/`, look, depth + 1));
  return element("li", {}, element("details", { open: "true" }, element("summary", { id: `folder-${path}` }, `${file.name}/`), list));
}

function itemsOf(machine, inode, folder, look, depth) {
  return machine()
    .names(inode)
    .map((file) => {
      const path = folder + file.name;
      if (file.kind === "file") return fileItem(machine, file, path, look);
      if (file.kind === "directory" && depth < MOST_DEPTH) return directoryItem(machine, file, path, look, depth);
      return otherItem(file);
    });
}

/** The tree. `machine()` is the machine as it stands; a press of a file's name calls `look(path, bytes)`. */
export function showFiles(list, machine, look) {
  const items = itemsOf(machine, undefined, "/", look, 0);
  stopAtOne(items.flatMap((item) => [...item.querySelectorAll("button, summary")]));
  replace(list, items);
}

/**
 * A file that is put on the disk: the shell is told to run `unhex > NAME`, and the bytes are typed as digits. So it is a part of the
 * session like all that is typed. The digits' echo isn't shown.
 */
export class Upload {
  constructor(name, bytes) {
    this.name = name;
    this.size = bytes.length;
    this.typed = Upload.keysOf(name, bytes);
    this.echo = [];
  }

  /** Whether a file may have that name. */
  static isName(name) {
    return NAME.test(name);
  }

  /** Why a file can't be typed; `null` where it can. */
  static refusal(machine, screen, name, size) {
    if (!Upload.isName(name)) return say("bad-name");
    if (size > MOST_UPLOAD) return say("too-large", { most: MOST_UPLOAD });
    if (!machine.names().some((file) => file.name === HELPER)) return say("no-helper", { helper: HELPER });
    if (!screen.endsWith("$ ")) return say("shell-busy");
    return null;
  }

  static keysOf(name, bytes) {
    const digits = Array.from(bytes, (byte) => byte.toString(16).padStart(2, "0"));
    let text = `${HELPER} > ${name}\n`;
    for (let at = 0; at < digits.length; at += ROW) text += `${digits.slice(at, at + ROW).join("")}\n`;
    return [...new TextEncoder().encode(text + END_OF_INPUT)];
  }

  /** Takes what the console wrote. */
  take(bytes) {
    for (const byte of bytes) this.echo.push(byte);
  }

  /** What of that is shown. */
  get shown() {
    const text = new TextDecoder().decode(Uint8Array.from(this.echo));
    const [command] = text.split("\n");
    const end = text.slice(text.lastIndexOf(END_OF_INPUT) + 1);
    return `${command}\n${say("typed-as-digits", { size: this.size })}\n${end}`;
  }
}
