// Random journeys through the time of a machine, for check.py: wherever one comes to, all is as in a machine that was only given the events.
import { callText } from "./calls.js";
import { Driver } from "./driver.js";

const FRAMES = 256;
const LINES = ["ls", "echo hi | cat", "race", "crash", "mkdir d", "rm cat", "forktest", "cat init | cat", "spin", "\x04", "kill 4"];
const MOST_NOTED = 30_000; // events after which calls are compared
const KINDS = { back: ["step", "call", "switch", "key", "tick"], forward: ["call", "fork", "switch", "fault", "output"] };

/** Numbers from 0 on, the same for the same seed. */
class Chance {
  constructor(seed) {
    this.state = seed;
  }

  below(count) {
    this.state = (this.state * 1103515245 + 12345) % 2 ** 31;
    return Math.floor(this.state / 65536) % count;
  }

  of(list) {
    return list[this.below(list.length)];
  }
}

function runs(driver, steps) {
  driver.run();
  for (let part = 0; part < 3; part += 1) driver.advance(steps, Infinity);
  driver.pause();
}

function goesForward(driver, kind) {
  driver.forwardTo(kind);
  for (let part = 0; part < 20 && driver.forward; part += 1) driver.frame(10);
  driver.pause();
}

function types(driver, line) {
  for (const byte of new TextEncoder().encode(`${line}\n`)) driver.key(byte);
}

function breaks(driver, address) {
  driver.breaks.add(address);
  runs(driver, 1000);
  driver.breaks.clear();
}

function notes(driver) {
  driver.note();
  if (driver.noter) driver.noteUntil(Infinity);
}

const MOVES = [
  (driver, chance) => driver.seek(chance.below(driver.end + 1)),
  (driver) => driver.seek(driver.end),
  (driver, chance) => types(driver, chance.of(LINES)),
  (driver) => driver.tickByHand(),
  (driver) => driver.step(),
  (driver, chance) => driver.watch(chance.below(2) === 0),
  (driver, chance) => runs(driver, chance.below(5000) + 1),
  (driver, chance) => driver.back(chance.of(KINDS.back)),
  (driver, chance) => goesForward(driver, chance.of(KINDS.forward)),
  (driver, chance) => driver.enter(chance.of(driver.branches.all)?.number),
  (driver) => notes(driver),
  (driver, chance) => breaks(driver, 4 * chance.below(400)),
];

const seen = (key, value) => (typeof value === "bigint" ? value.toString() : value);
const stateOf = ({ machine, text }) => JSON.stringify([machine.processes(), machine.freeFrames(), text], seen);

function notedOf({ calls, machine, position }) {
  const marks = [calls.switches, calls.outputs, calls.faults].map((lines) => lines.filter(({ at }) => at < position));
  return JSON.stringify([machine.processes().map(({ pid }) => calls.of(pid, position).map(callText)), marks], seen);
}

// What another machine comes to that is given the same events, and looked at step by step where that is compared.
function compare(driver, module, image) {
  const { position, calls } = driver;
  const plain = new Driver(module, image, FRAMES, driver.record.before(position).events);
  const isNoted = calls.from === 0 && calls.knows(position) && position < MOST_NOTED;
  plain.pause();
  if (isNoted) while (!plain.isAtEnd && !plain.halt) plain.playRecorded(1000);
  else plain.seek(plain.end);
  const isSame = plain.position === position && stateOf(plain) === stateOf(driver) && (!isNoted || notedOf(plain) === notedOf(driver));
  plain.close();
  return isSame;
}

/** A journey of so many moves. It throws where something differs. */
export function journey(module, image, seed, moves) {
  const chance = new Chance(seed);
  const driver = new Driver(module, image, FRAMES);
  const made = [];
  for (let move = 0; move < moves; move += 1) {
    made.push(chance.below(MOVES.length));
    MOVES[made.at(-1)](driver, chance);
    if (!compare(driver, module, image)) throw new Error(`journey ${seed}: other at ${driver.position} after the moves ${made}`);
  }
  driver.close();
}
