// A run of a test of an exercise, on a machine of its own: what course/grade.py does by `xv6 play`, event by event.
import { faultOf } from "./faults.js";
import { Halt, Machine } from "./machine.js";
import { Record } from "./record.js";
import { say } from "./words.js";

const BOOT_STEPS = 1_000_000;
const MOST_PRINTED = 1_000_000; // bytes after which a run is ended
const READ = 5;
const FIRST = 1;
const FACTOR = 6364136223846793005n;
const ADDED = 1442695040888963407n;

const bytesOf = (text) => Array.from(text, (letter) => letter.charCodeAt(0));
const textOf = (bytes) => {
  let text = "";
  for (const byte of bytes) text += String.fromCharCode(byte);
  return text;
};

// When ticks come: never (0), after each n steps, or "random SEED N".
class Clock {
  constructor(schedule = 0) {
    const [, seed, steps] = /^random (\d+) (\d+)$/.exec(schedule) ?? [0, null, schedule];
    this.steps = Number(steps);
    this.left = this.steps;
    this.state = seed === null ? null : BigInt(seed);
  }

  get isOff() {
    return this.steps === 0;
  }

  // The steps up to the next at which it may strike.
  get until() {
    if (this.isOff) return Infinity;
    return this.state === null ? this.left : 1;
  }

  // Counts steps, as many as it said at most; whether it strikes after them.
  strikes(count) {
    if (this.isOff) return false;
    if (this.state !== null) {
      this.state = BigInt.asUintN(64, this.state * FACTOR + ADDED);
      return Number(this.state >> 32n) % this.steps === 0;
    }
    this.left -= count;
    if (this.left > 0) return false;
    this.left = this.steps;
    return true;
  }
}

// What ends a run before it is done.
class Stop extends Error {
  constructor(end, steps = 0) {
    super(end);
    this.end = end;
    this.steps = steps;
  }
}

/**
 * What became of a run: `end`, `steps`, `output`, `faults`, `file(path)`, as the judge takes it, and the `record` that
 * replays it.
 */
export class Trial {
  /** Types lines at the shell, each at its prompt, with ticks by a schedule. With `looks` faults are seen. */
  constructor(module, image, { frames, steps, schedule, lines, looks }) {
    this.machine = Machine.boot(module, image, frames);
    this.record = new Record(frames);
    this.looks = looks;
    this.clock = new Clock();
    this.printed = [];
    this.output = "";
    this.faults = [];
    this.end = "done";
    this.steps = 0;
    try {
      this.wait(BOOT_STEPS);
      this.clock = new Clock(schedule);
      for (const line of lines) this.enter(line, steps);
    } catch (error) {
      this.stopBy(error);
    }
    this.files = this.end === "done" || this.end === "unreached" ? (path) => this.read(path) : () => null;
  }

  stopBy(error) {
    if (error instanceof Halt) this.end = "halted";
    else if (error instanceof Stop) [this.end, this.steps] = [error.end, error.steps];
    else throw error;
  }

  // Types a line, and waits for the next prompt. What it printed is the output.
  enter(line, steps) {
    const from = this.printed.length;
    for (const byte of bytesOf(`${line}\n`)) {
      this.give({ kind: "keys", times: 1, bytes: [byte] }, () => this.machine.key(byte));
    }
    try {
      this.wait(steps);
    } finally {
      this.take();
      const shown = textOf(this.printed.slice(from));
      const begin = shown.indexOf(`${line}\n`) + line.length + 1;
      this.output = shown.slice(begin).replace(/\$ $/, "");
    }
  }

  give(event, act) {
    this.record.add(event);
    act();
    this.take();
  }

  take() {
    for (const byte of this.machine.console()) this.printed.push(byte);
    if (this.printed.length > MOST_PRINTED) throw new Stop("cut");
  }

  wait(most) {
    let made = 0;
    while (!this.isAtPrompt()) {
      if (made >= most || (this.clock.isOff && this.machine.isIdle())) throw new Stop("unreached", made);
      made += this.goOn(most - made);
    }
  }

  // Steps up to the next at which the clock may strike, or up to that at which nobody is ready; how many.
  goOn(most) {
    const asked = Math.min(most, this.clock.until, BOOT_STEPS);
    const made = this.machine.isIdle() ? this.idle(asked) : this.go(asked);
    this.take();
    if (this.clock.strikes(made)) this.give({ kind: "tick", times: 1 }, () => this.machine.tick());
    return made;
  }

  idle(count) {
    this.record.repeat("step", count);
    this.machine.steps(count);
    return count;
  }

  go(asked) {
    let made = 0;
    const note = (count) => {
      this.record.repeat("step", count);
      made += count;
    };
    if (!this.looks) this.machine.run(asked, note);
    while (this.looks && made < asked && !this.machine.isIdle()) this.look(asked - made, note);
    return made;
  }

  // What the process that runs computes, up to a call or a fault; then a step, which is looked at.
  look(asked, note) {
    const computed = this.machine.compute(asked);
    note(computed);
    if (computed === asked) return;
    const pid = this.machine.running();
    const fault = pid ? faultOf(this.machine, this.machine.process(pid)) : null;
    if (fault) this.faults.push(say("fault-ended", { pid, text: fault }));
    this.machine.run(1, note);
  }

  // Whether the shell waits for a line, and nobody but it and process 1 is alive.
  isAtPrompt() {
    if (!this.machine.isIdle()) return false;
    const alive = this.machine.processes().filter(({ pid, state }) => pid !== FIRST && state !== "ended");
    const shell = alive[0] ?? this.machine.process(FIRST);
    return alive.length <= 1 && shell.call === READ && this.machine.awaited(shell.pid)?.kind === "console";
  }

  read(path) {
    const found = this.machine.find(path);
    return found?.kind === "file" ? textOf(this.machine.read(found.inode)) : null;
  }

  file(path) {
    return this.files(path);
  }

  close() {
    this.machine.close();
  }
}
