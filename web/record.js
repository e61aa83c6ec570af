// What a machine was given: a list of events, each with its position, the script that replays it, and the link that holds the script.
import { Halt } from "./machine.js";
import { say } from "./words.js";

const SIGN = "session";
const MOST = 1_000_000_000;

/** A number that tells two images apart, as eight digits (FNV-1a). It guards against mistakes alone. */
export function markOf(image) {
  let mark = 0x811c9dc5;
  for (const byte of image) mark = Math.imul(mark ^ byte, 0x01000193);
  return (mark >>> 0).toString(16).padStart(8, "0");
}

const hexOf = (bytes) => bytes.map((byte) => byte.toString(16).padStart(2, "0")).join("");
const bytesOf = (digits) => (digits.match(/../g) ?? []).map((pair) => parseInt(pair, 16));

function lineOf({ kind, times, bytes }) {
  return kind === "keys" ? `keys ${hexOf(bytes)}` : `${kind} ${times}`;
}

const isNothing = (event) => event === null || event.times === 0 || event.bytes?.length === 0;

// What a line of a script says, as an event; `null` for an empty line.
function eventOf(line) {
  const [word, rest] = line.split(/ (.*)/s);
  if (word === "") return null;
  if ((word === "step" || word === "tick") && /^\d+$/.test(rest)) return { kind: word, times: Number(rest) };
  if (word === "keys" && /^([0-9a-f]{2})*$/.test(rest)) return { kind: word, bytes: bytesOf(rest) };
  if (word === "type") return { kind: "keys", bytes: [...new TextEncoder().encode(`${rest ?? ""}\n`)] };
  throw new Error(say("no-line", { line: line.slice(0, 40) }));
}

const endOf = (run) => run.start + run.times;

// A run's first events.
function front(run, times) {
  return run.bytes ? { ...run, times, bytes: run.bytes.slice(0, times) } : { ...run, times };
}

/** The events of a machine, each kind's runs as one. A position is a number of events. */
export class Record {
  constructor(frames, events = []) {
    this.frames = frames;
    this.runs = [];
    for (const event of events) this.add(event);
  }

  /** The events, as `eventsOf` gives them. */
  get events() {
    return this.runs.map(({ kind, times, bytes }) => ({ kind, times, bytes }));
  }

  get length() {
    return this.runs.length > 0 ? endOf(this.runs.at(-1)) : 0;
  }

  add({ kind, times, bytes }) {
    if (kind === "keys") bytes.forEach((byte) => this.key(byte));
    else this.repeat(kind, times);
  }

  /** So many steps or ticks. */
  repeat(kind, times) {
    if (times === 0) return;
    const last = this.runs.at(-1);
    if (last?.kind === kind && last.times + times <= MOST) last.times += times;
    else this.push({ kind, times });
  }

  key(byte) {
    const last = this.runs.at(-1);
    if (last?.kind !== "keys") return this.push({ kind: "keys", times: 1, bytes: [byte] });
    last.bytes.push(byte);
    last.times += 1;
    return undefined;
  }

  push(run) {
    this.runs.push({ ...run, start: this.length, before: this.counts() });
  }

  indexAt(position) {
    let [low, high] = [0, this.runs.length];
    while (low < high) {
      const middle = (low + high) >>> 1;
      if (endOf(this.runs[middle]) <= position) low = middle + 1;
      else high = middle;
    }
    return low;
  }

  /** The run of events that the one after a position is of; none at the end. */
  at(position) {
    return this.runs[this.indexAt(position)];
  }

  /** How many steps, ticks and keys stand before a position. */
  counts(position = this.length) {
    const run = this.at(position) ?? this.runs.at(-1);
    if (!run) return { step: 0, tick: 0, keys: 0 };
    return { ...run.before, [run.kind]: run.before[run.kind] + Math.min(position - run.start, run.times) };
  }

  /** The events before a position, as another record. */
  before(position) {
    const index = this.indexAt(position);
    const record = new Record(this.frames);
    record.runs = this.runs.slice(0, index).map((run) => front(run, run.times));
    const cut = this.runs[index];
    if (cut && position > cut.start) record.runs.push(front(cut, position - cut.start));
    return record;
  }

  /** Up to which position another record has the same events. */
  sharedWith(other) {
    const most = Math.min(this.runs.length, other.runs.length);
    for (let index = 0; index < most; index += 1) {
      const [one, two] = [this.runs[index], other.runs[index]];
      const same = one.kind === two.kind ? sharedTimes(one, two) : 0;
      if (same < one.times || same < two.times) return one.start + same;
    }
    return Math.min(this.length, other.length);
  }

  /** As `xv6 run` takes it. */
  script() {
    return this.runs.map((run) => `${lineOf(run)}\n`).join("");
  }

  /** The mark of the image, frames and script, as a link holds them. */
  text(mark) {
    return `boot ${mark} ${this.frames}\n${this.script()}`;
  }
}

function sharedTimes(one, two) {
  const most = Math.min(one.times, two.times);
  if (!one.bytes) return most;
  let same = 0;
  while (same < most && one.bytes[same] === two.bytes[same]) same += 1;
  return same;
}

/** The events of a script. It throws where a line says nothing. */
export function eventsOf(script) {
  return script.split("\n").map(eventOf).filter((event) => !isNothing(event));
}

const PART = 200_000; // steps between two looks at the clock

/** Gives `player.machine` the events of a record from `player.position` on, without looking, up to a position, a time, or a halt. */
export function replay(player, record, to, until = Infinity) {
  while (player.position < to && !player.halt && performance.now() < until) playSome(player, record.at(player.position), to);
}

// The next event of a run, or a part of its steps. Steps of a machine in which nobody is ready change nothing.
function playSome(player, run, to) {
  const left = Math.min(endOf(run), to) - player.position;
  let made = 1;
  try {
    if (run.kind === "tick") player.machine.tick();
    else if (run.kind === "keys") player.machine.key(run.bytes[player.position - run.start]);
    else made = playSteps(player.machine, left, (count) => (made = count));
  } catch (error) {
    if (!(error instanceof Halt)) throw error;
    player.halt = error;
  }
  player.position += made;
}

function playSteps(machine, left, tell) {
  const asked = Math.min(left, PART);
  const made = machine.run(asked, tell);
  return made < asked ? left : made;
}

async function through(bytes, stream) {
  const piped = new Blob([bytes]).stream().pipeThrough(stream);
  return new Uint8Array(await new Response(piped).arrayBuffer());
}

const toLetters = (bytes) => {
  let text = "";
  for (const byte of bytes) text += String.fromCharCode(byte);
  return btoa(text).replaceAll("+", "-").replaceAll("/", "_").replaceAll("=", "");
};
const fromLetters = (letters) => Uint8Array.from(atob(letters.replaceAll("-", "+").replaceAll("_", "/")), (letter) => letter.charCodeAt(0));

/** The part of a link that holds a session on the image with a mark, and what one looks at: `view`, `at`, `pid`, `break`, `only`. */
export async function toFragment(record, mark, seen = {}) {
  const words = Object.entries(seen).filter(([, value]) => value).map(([name, value]) => `&${name}=${value}`);
  return `#${SIGN}=${await packText(record.text(mark))}${words.join("")}`;
}

/** A text in the letters of a link. */
export async function packText(text) {
  return toLetters(await through(new TextEncoder().encode(text), new CompressionStream("deflate-raw")));
}

/** The text that letters of a link hold; empty where they hold none. */
export async function unpackText(letters) {
  try {
    return new TextDecoder().decode(await through(fromLetters(letters), new DecompressionStream("deflate-raw")));
  } catch {
    return "";
  }
}

/** The words of a link, as `view` and `only`. */
export const wordsOf = (fragment) => Object.fromEntries(new URLSearchParams(fragment.replace(/^#/, "")));

/** The session of a link: `{ mark, frames, events }`; `null` where it names none. It throws where the link is broken. */
export async function sessionOf(fragment) {
  const letters = wordsOf(fragment)[SIGN];
  if (!letters) return null;
  const [head, ...lines] = (await unpackText(letters)).split("\n");
  const [, mark, frames] = head.match(/^boot ([0-9a-f]{8}) (\d+)$/) ?? [];
  if (!mark) throw new Error(say("no-session"));
  return { mark, frames: Number(frames), events: eventsOf(lines.join("\n")) };
}
