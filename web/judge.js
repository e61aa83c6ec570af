// Judges a test of an exercise as course/grade.py does: by how the run ended, by what was printed after the last typed
// line, by files and by faults.
import { say } from "./words.js";

const LINE_LIMIT = 1000; // letters of a line on which a regular expression is tried
const FAULTS_SHOWN = 5;

const quoted = (text) => (text === undefined ? say("judge-nothing") : JSON.stringify(text));

// The lines of a text; what comes after the last line end is one, if it isn't empty.
function linesOf(text) {
  const lines = text.split("\n");
  return lines.at(-1) === "" ? lines.slice(0, -1) : lines;
}

function judgeEnd(end, steps) {
  return end === "done" ? [] : [say(`judge-${end}`, { steps })];
}

function judgeOutput(wanted, output) {
  if (wanted === undefined || output === wanted) return [];
  const [wants, lines] = [wanted.split("\n"), output.split("\n")];
  const index = wants.findIndex((line, at) => line !== lines[at]);
  const at = index < 0 ? wants.length : index;
  return [say("judge-line", { line: at + 1, found: quoted(lines[at]), wanted: quoted(wants[at]) })];
}

// The lines in any order, each as often as it is wanted.
function judgeLines(wanted, lines) {
  if (!wanted) return [];
  const left = [...wanted];
  const said = [];
  for (const line of lines) {
    const at = left.indexOf(line);
    if (at < 0) said.push(say("judge-more", { line: quoted(line) }));
    else left.splice(at, 1);
  }
  return said.concat(left.map((line) => say("judge-missing", { line: quoted(line) })));
}

function judgePatterns({ match = [], not = [] }, lines) {
  const hits = (pattern) => lines.filter((line) => new RegExp(pattern).test(line.slice(0, LINE_LIMIT)));
  const missing = match.filter((pattern) => hits(pattern).length === 0);
  const matched = (pattern) => hits(pattern).map((line) => say("judge-match", { pattern, line: quoted(line) }));
  return [...missing.map((pattern) => say("judge-no-match", { pattern })), ...not.flatMap(matched)];
}

function judgeFile(path, wanted, found) {
  if (wanted === false) return found === null ? [] : [say("judge-file-left", { path })];
  if (found === null) return [say("judge-file-missing", { path })];
  if (wanted === true || found === wanted) return [];
  return [say("judge-file", { path, found: quoted(found), wanted: quoted(wanted) })];
}

/**
 * What is wrong with a run, in sentences; none where all is right. `test` is a test of a rubric, in which names are
 * filled in. `seen` is `{ end, steps, output, faults, file }`: "done", or why not; how many steps were waited; a letter
 * for each byte of what was printed; the faults in words; a function from a path to a file's text, or null where there
 * is none.
 */
export function judged(test, seen) {
  const lines = linesOf(seen.output);
  const files = Object.entries(test.left ?? {}).flatMap(([path, wanted]) => judgeFile(path, wanted, seen.file(path)));
  return [
    ...judgeEnd(seen.end, seen.steps),
    ...judgeOutput(test.output, seen.output),
    ...judgeLines(test.lines, lines),
    ...judgePatterns(test, lines),
    ...files,
    ...seen.faults.slice(0, FAULTS_SHOWN),
  ];
}
