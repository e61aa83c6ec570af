// What each line of a text of `xv6 asm` became: its address, and its instructions or bytes, as in the program's file.
import { disassemble } from "./disassembly.js";
import { firstPart } from "./names.js";

const WORD = 4;
const SIZES = { li: 8, la: 8, ".byte": 1, ".word": WORD, ".dword": 8 };
const MOST_BYTES = 16; // that are shown of a line

// A line without its label and its comment.
function statementOf(line) {
  const code = line.match(/^(?:[^"#]|"(?:[^"\\]|\\.)*")*/)[0];
  return code.replace(/^\s*[A-Za-z0-9_]+\s*:/, "").trim();
}

// How many bytes a statement takes at an address.
function sizeOf(statement, address) {
  if (statement === "") return 0;
  const [word, rest = ""] = statement.split(/\s+(.*)/s);
  if (word === ".ascii") return rest.slice(1, -1).replace(/\\./g, "-").length;
  if (word === ".zero") return Number(rest);
  if (word === ".pad") return -address & (Number(rest) - 1);
  return SIZES[word] ?? WORD;
}

const hex = (byte) => byte.toString(16).padStart(2, "0");

function dataText(bytes) {
  return [...bytes.subarray(0, MOST_BYTES)].map(hex).join(" ") + (bytes.length > MOST_BYTES ? " .." : "");
}

function rowsAt(line, address, statement, bytes) {
  if (statement.startsWith(".")) return [{ line, address, text: dataText(bytes) }];
  const view = new DataView(bytes.buffer, bytes.byteOffset, bytes.length);
  return Array.from({ length: bytes.length / WORD }, (_, index) => ({
    line,
    address: address + WORD * index,
    text: disassemble(view.getInt32(WORD * index, true)),
  }));
}

/** The rows of a text that was assembled without a fault: its lines in their order, each with address and text. */
export function rowsOf(text, program) {
  const { bytes } = firstPart(program, Infinity);
  const rows = [];
  let address = 0;
  text.split("\n").forEach((line, index) => {
    const statement = statementOf(line);
    const size = sizeOf(statement, address);
    if (size > 0) rows.push(...rowsAt(index + 1, address, statement, bytes.subarray(address, address + size)));
    address += size;
  });
  return rows;
}
