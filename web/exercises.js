// The exercises that the page has: their images, and the judgement of a program.
import { judged } from "./judge.js";
import { mkfs } from "./library.js";
import { Trial } from "./trial.js";

const LETTERS = "abcdefghijklmnopqrstuvwxyz";
const NAMES = 9;
const NAME_LENGTH = 5;

const latin = (text) => Uint8Array.from(text, (letter) => letter.charCodeAt(0));

// Numbers by chance, the same for the same seed.
function chanceOf(seed) {
  let state = 0;
  for (const letter of seed) state = Math.imul(state ^ letter.charCodeAt(0), 0x01000193) + 1;
  return (most) => {
    state = (Math.imul(state, 1664525) + 1013904223) | 0;
    return (state >>> 8) % most;
  };
}

// The names that %1 to %9 stand for.
function namesOf(seed) {
  const chance = chanceOf(seed);
  const names = new Set();
  const letter = () => LETTERS[chance(LETTERS.length)];
  while (names.size < NAMES) names.add(Array.from({ length: NAME_LENGTH }, letter).join(""));
  return [...names];
}

// A test in which names are filled in.
function filled(test, names) {
  const fill = (text) => text.replace(/%(%|[1-9])/g, (_, sign) => (sign === "%" ? "%" : names[Number(sign) - 1]));
  const fillAll = (value) => {
    if (typeof value === "string") return fill(value);
    return Array.isArray(value) ? value.map(fillAll) : value;
  };
  const fillEntry = ([path, value]) => [fill(path), fillAll(value)];
  const fillTable = (table = {}) => Object.fromEntries(Object.entries(table).map(fillEntry));
  const whole = Object.fromEntries(Object.entries(test).map(([key, value]) => [key, fillAll(value)]));
  return { ...whole, files: fillTable(test.files), left: fillTable(test.left) };
}

// The directories above a path, from the root on, and the path itself where it ends with a slash.
function directoriesOf(path) {
  const parts = path.split("/").slice(1, -1);
  return parts.map((_, index) => `/${parts.slice(0, index + 1).join("/")}`);
}

/** The exercises, of what course/pack.py wrote. */
export class Exercises {
  constructor(module, { files, exercises }) {
    this.module = module;
    this.files = files.map((letters) => latin(atob(letters)));
    this.all = exercises;
  }

  find(name) {
    return this.all.find((exercise) => exercise.name === name) ?? null;
  }

  /** A test of an exercise, with the names of a seed. */
  test(exercise, name, seed) {
    const test = exercise.tests.find((one) => one.name === name);
    return test && filled(test, namesOf(`${seed} ${exercise.name} ${name}`));
  }

  /**
   * The image of an exercise with a program and more files: their texts by their paths. Its entries are in the order of
   * course/grade.py's.
   */
  image(exercise, program, files = {}) {
    const own = `/${exercise.program}`;
    const base = exercise.manifest.filter(({ path }) => path !== own && !(path in files));
    const entries = base.map((entry) => (entry.kind === "file" ? { ...entry, bytes: this.files[entry.file] } : entry));
    const known = new Set(entries.filter(({ kind }) => kind === "dir").map(({ path }) => path));
    for (const path of Object.keys(files).flatMap(directoriesOf)) {
      if (!known.has(path)) entries.push({ kind: "dir", path });
      known.add(path);
    }
    if (!(own in files)) entries.push({ kind: "file", path: own, bytes: program });
    for (const [path, text] of Object.entries(files)) {
      if (!path.endsWith("/")) entries.push({ kind: "file", path, bytes: latin(text) });
    }
    return mkfs(this.module, entries, exercise.machine);
  }

  /** Runs a test up to the first schedule under which something is wrong: what is wrong, the schedule and the events. */
  run(exercise, name, seed, program) {
    const test = this.test(exercise, name, seed);
    const image = this.image(exercise, program, test.files);
    const { frames, steps, schedules } = { ...exercise.machine, ...test };
    let last = null;
    for (const [index, schedule] of schedules.entries()) {
      const trial = new Trial(this.module, image, { frames, steps, schedule, lines: test.type, looks: index === 0 });
      const said = judged(test, trial);
      last = { test, said, schedule, events: trial.record.events, output: trial.output };
      trial.close();
      if (said.length > 0) break;
    }
    return last;
  }
}
