// Gives a machine its events: steps as fast as is wished, what is typed, time, and those of a record that it has not come to yet.
import { Calls, FORK, firstAfter, lastBefore } from "./calls.js";
import { Halt, Machine } from "./machine.js";
import { Record, replay } from "./record.js";
import { Branches, Snapshots } from "./timeline.js";

const FRAME = 12; // milliseconds of steps at a time
const TICK = 100; // milliseconds
const FEWEST_STEPS = 1000; // from one tick to the next, while a process runs
const PATIENCE = 200_000; // steps that a busy machine makes before it is given more of what was pasted
const LINE = 64; // of the 128 bytes that the console keeps
const QUANTUM = { plain: 100_000, watched: 2000 };
const NOTED_AT_ONCE = 1_000_000; // events of a session that are looked at as soon as its calls are wanted
const SLEEP = 13;
const LINE_END = 10;

// What was pasted and is not yet typed.
class Pasted {
  constructor() {
    this.bytes = [];
    this.at = 0;
  }

  get isEmpty() {
    return this.at === this.bytes.length;
  }

  add(bytes) {
    this.bytes = this.bytes.slice(this.at).concat(bytes);
    this.at = 0;
  }

  /** A line, or a part of it that the console has room for. */
  takeLine() {
    const end = this.bytes.indexOf(LINE_END, this.at) + 1 || this.bytes.length;
    const from = this.at;
    this.at = Math.min(end, from + LINE);
    return this.bytes.slice(from, this.at);
  }
}

/** A machine at a position of its record, and what it is given. `rate` is in steps a second, or `Infinity`. */
export class Driver {
  constructor(module, image, frames, events = []) {
    this.machine = Machine.boot(module, image, frames);
    this.record = new Record(frames, events);
    this.position = 0;
    this.output = []; // the console's bytes, as far as they are known
    this.written = 0; // how many of them were written up to there
    this.turns = 0; // how often it went to another position than the next
    this.calls = new Calls();
    this.snapshots = new Snapshots();
    this.snapshots.begin(this.machine);
    this.branches = new Branches();
    this.breaks = new Set(); // addresses
    this.isRunning = true;
    this.isWatched = true;
    this.hasClock = true;
    this.rate = Infinity;
    this.halt = null;
    this.goal = events.length > 0 ? this.record.length : null; // a position to be at, as soon as can be
    this.forward = null; // what is to be run to
    this.noter = null; // what looks at all events up to here
    this.stopped = null; // why the machine paused by itself
    this.resumed = -1; // the position at which it went on
    this.pasted = new Pasted();
    this.fraction = 0;
    this.sinceTick = { time: 0, steps: 0 };
    this.sincePaste = 0;
  }

  get end() {
    return this.record.length;
  }

  get isAtEnd() {
    return this.position >= this.end;
  }

  /** Whether it goes to a position, or to something, by itself. */
  get isBound() {
    return this.goal !== null || this.forward !== null || this.noter !== null;
  }

  /** The console's bytes up to here. */
  get text() {
    return this.output.slice(0, this.written);
  }

  /** Whether a process runs or is ready. */
  get isBusy() {
    return !this.machine.isIdle();
  }

  /** Whether something that was pasted waits for room at the console. */
  get hasTyped() {
    return !this.pasted.isEmpty;
  }

  counts() {
    return this.record.counts(this.position);
  }

  /** The bytes of the image that the machine would leave here. */
  save() {
    return this.machine.image();
  }

  close() {
    this.machine.close();
    this.noter?.machine.close();
    this.snapshots.close();
  }

  // What a halt of the machine comes to.
  guard(act) {
    if (this.halt) return 0;
    try {
      return act();
    } catch (error) {
      if (!(error instanceof Halt)) throw error;
      this.halt = error;
      this.pasted = new Pasted();
      return 0;
    }
  }

  take() {
    for (const byte of this.machine.console()) {
      this.output[this.written] = byte;
      this.written += 1;
    }
  }

  // ---- positions

  /** Another position of the record, at once. What was pasted and isn't typed yet is dropped. */
  seek(position) {
    this.pause();
    this.pasted = new Pasted();
    this.go(Math.max(0, Math.min(position, this.end)), Infinity);
  }

  /** Leaves all that it goes to by itself. */
  pause() {
    this.isRunning = false;
    this.forward = null;
    this.goal = null;
    this.stopped = null;
    this.noter?.machine.close();
    this.noter = null;
  }

  // On the way to a position, until a time.
  go(position, until) {
    const from = this.snapshots.before(position);
    if (position < this.position || from.position > this.position) this.restore(from);
    replay(this, this.record, position, until);
    this.take();
    if (this.isKept) this.snapshots.keep(this.machine, this.position, this.written);
  }

  get isKept() {
    return !this.halt && this.position >= this.snapshots.all.at(-1).position;
  }

  restore({ machine, position, output }) {
    this.machine.close();
    this.machine = machine.copy();
    this.position = position;
    this.written = output;
    this.turns += 1;
    this.halt = null;
  }

  /** A machine of its own, as it was at a position. */
  at(position) {
    const from = this.snapshots.before(position);
    const player = { machine: from.machine.copy(), position: from.position, halt: null };
    replay(player, this.record, position);
    player.machine.console();
    return player.machine;
  }

  // What is known of the time after this position is left, and kept as a branch.
  leave() {
    if (this.isAtEnd) return;
    this.branches.keep(this.record, this.position);
    this.cut(this.record.before(this.position), this.position);
  }

  // Another record, which is the same up to this position.
  cut(record, position) {
    this.record = record;
    this.output.length = this.written;
    this.calls.cut(position);
    this.snapshots.cut(position);
  }

  /** Goes to a time that was left; this one is kept as a branch. */
  enter(number, wanted) {
    const record = this.branches.take(number);
    if (!record) return;
    const shared = this.record.sharedWith(record);
    if (this.end > shared) this.branches.keep(this.record, shared);
    this.seek(shared);
    this.cut(record, shared);
    this.seek(wanted ?? this.end);
  }

  /** Begins to look at all events up to here, so that the calls are known. */
  note() {
    if (this.noter || (this.calls.from === 0 && this.calls.knows(this.position))) return;
    if (this.calls.from !== 0) this.calls = new Calls();
    this.noter = { machine: this.at(this.calls.to), position: this.calls.to };
  }

  noteUntil(until) {
    while (this.noter.position < this.position && performance.now() < until) this.noteSome(this.noter);
    if (this.noter.position < this.position) return;
    this.noter.machine.close();
    this.noter = null;
  }

  /** Whether the calls aren't known, and the session is so short that they are noted as soon as one looks at them. */
  get isToBeNoted() {
    const isKnown = this.calls.from === 0 && this.calls.knows(this.position);
    return !isKnown && !this.isRunning && !this.isBound && this.position <= NOTED_AT_ONCE;
  }

  noteSome(player) {
    const run = this.record.at(player.position);
    const left = Math.min(run.start + run.times, this.position) - player.position;
    try {
      player.position += this.playOne(player.machine, run, player.position, Math.min(left, QUANTUM.watched), left);
    } catch (error) {
      if (!(error instanceof Halt)) throw error;
      player.position = this.position;
    }
  }

  // An event of a run that is looked at, or some of its steps. How many there were.
  playOne(machine, run, position, most, left) {
    if (run.kind === "step") {
      const made = this.calls.run(machine, position, most, () => {});
      machine.console();
      if (made === most) return made;
      this.calls.to = position + left;
      return left;
    }
    this.calls.pass(machine, position, () => giveOne(machine, run, position));
    machine.console();
    return 1;
  }

  // ---- events of now

  // An event that comes here. `act` gives it to the machine.
  happen(kind, byte, act) {
    this.leave();
    if (kind === "keys") this.record.key(byte);
    else this.record.repeat(kind, 1);
    this.give(act);
  }

  // Gives the machine an event that is no step, which is noted where all before it is.
  give(act) {
    const isNoted = this.calls.to === this.position;
    this.guard(() => (isNoted ? this.calls.pass(this.machine, this.position, act) : act()));
    this.position += 1;
    this.take();
  }

  key(byte) {
    this.happen("keys", byte, () => this.machine.key(byte));
  }

  /** Whether each step is looked at, so that calls can be told. */
  watch(isWatched) {
    this.isWatched = isWatched;
  }

  /** Goes on. */
  run() {
    this.pause();
    this.isRunning = true;
    this.resumed = this.position;
  }

  /** What was typed: at once, but after what was pasted. */
  type(bytes) {
    if (this.halt) return;
    if (this.isBound) this.run();
    if (this.hasTyped || bytes.length > 1) this.pasted.add(bytes);
    else bytes.forEach((byte) => this.key(byte));
  }

  tick() {
    if (this.halt) return;
    this.sinceTick = { time: 0, steps: 0 };
    this.happen("tick", 0, () => this.machine.tick());
  }

  /** A tick of the reader's. */
  tickByHand() {
    if (this.isBound) this.pause();
    this.tick();
  }

  /** At most so many steps of now; how many there were. */
  steps(most, stop) {
    const from = this.position;
    this.guard(() => this.look(from, most, stop, (count) => this.made(count)));
    this.take();
    if (this.isKept) this.snapshots.keep(this.machine, this.position, this.written);
    const made = this.position - from;
    this.sinceTick.steps += made;
    this.sincePaste += made;
    return made;
  }

  made(count) {
    if (this.isAtEnd) this.record.repeat("step", count);
    this.position += count;
  }

  // Steps, looked at where that is wished and not done yet.
  look(from, most, stop, done) {
    const isNew = from >= this.calls.to;
    if (!this.isWatched && !stop) return this.machine.run(most, done);
    if (isNew && this.isWatched) {
      if (from > this.calls.to) this.calls.skipTo(from);
      return this.calls.run(this.machine, from, most, done, stop);
    }
    if (stop) return new Calls().run(this.machine, from, most, done, stop);
    return this.machine.run(isNew ? most : Math.min(most, this.calls.to - from), done);
  }

  /** The next event of the record, or else a step of now. */
  step() {
    this.pause();
    if (!this.isAtEnd) this.playRecorded(1);
    else if (this.steps(1) === 0 && this.hasTyped) this.paste();
  }

  // Some of what the record has next. How many events there were.
  playRecorded(most, stop) {
    const run = this.record.at(this.position);
    const left = run.start + run.times - this.position;
    if (run.kind === "step") return this.playSteps(Math.min(most, left), left, stop);
    this.give(() => giveOne(this.machine, run, this.position));
    return 1;
  }

  playSteps(most, left, stop) {
    const from = this.position;
    const asked = this.isWatched && from < this.calls.to ? Math.min(most, this.calls.to - from) : most;
    const made = this.steps(asked, stop);
    if (made === asked || this.halt || !this.machine.isIdle()) return made;
    // Nobody is ready: the other steps of this run change nothing.
    if (this.calls.to === this.position) this.calls.to = from + left;
    this.position = from + left;
    return left;
  }

  /** What happens in so many milliseconds. */
  frame(elapsed) {
    const until = performance.now() + FRAME;
    if (this.goal !== null) return this.arrive(until);
    if (this.noter !== null) return this.noteUntil(until);
    if (this.forward !== null) return this.seekForward(until);
    if (!this.isRunning || this.halt) return undefined;
    if (this.isAtEnd) this.pass(elapsed);
    const allowed = this.rate * (elapsed / 1000) + this.fraction;
    const whole = Math.floor(allowed);
    this.fraction = Number.isFinite(allowed) ? Math.min(allowed - whole, 1) : 0;
    return this.advance(whole, until);
  }

  // A session that is replayed is left as it is at its end where a process is busy.
  arrive(until) {
    this.go(this.goal, until);
    if (this.position < this.goal && !this.halt) return;
    this.goal = null;
    if (this.isBusy || !this.isAtEnd) this.isRunning = false;
  }

  // Steps, at most `most`, until a time.
  advance(most, until) {
    const stop = this.breaks.size > 0 ? (pid, machine, position) => this.isBreak(pid, machine, position) : undefined;
    this.stopped = null;
    let left = most;
    while (left > 0 && this.isRunning && !this.halt) {
      const part = Math.min(left, this.isWatched || stop ? QUANTUM.watched : QUANTUM.plain);
      const isOld = !this.isAtEnd;
      const made = isOld ? this.playRecorded(part, stop) : this.steps(part, stop);
      if (this.stopped) this.isRunning = false;
      if (!isOld && !this.stopped) this.pasteIfDue(made < part);
      left -= Math.max(made, 1);
      if ((made < part && this.isAtEnd && !isOld && !this.hasTyped) || performance.now() > until) break;
    }
  }

  isBreak(pid, machine, position) {
    if (!pid || position === this.resumed || !this.breaks.has(machine.pc)) return false;
    this.stopped = { kind: "break", pc: machine.pc };
    return true;
  }

  pasteIfDue(isIdle) {
    if (this.hasTyped && (isIdle || this.sincePaste > PATIENCE)) this.paste();
  }

  paste() {
    this.pasted.takeLine().forEach((byte) => this.key(byte));
    this.sincePaste = 0;
  }

  // Time passes for a machine in which a process runs, is ready or sleeps.
  pass(elapsed) {
    this.sinceTick.time += elapsed;
    if (!this.hasClock || this.sinceTick.time < TICK) return;
    const sleeps = this.machine.processes().some(({ state, call }) => state === "waiting" && call === SLEEP);
    if (this.isBusy ? this.sinceTick.steps >= FEWEST_STEPS : sleeps) this.tick();
  }

  // ---- back to, and forward to

  /** The lines of a kind: `call`, `fork`, `switch`, `fault`, `output`, `key`, `tick`. */
  linesOf(kind) {
    const { lines, switches, faults, outputs } = this.calls;
    if (kind === "key" || kind === "tick") return this.record.runs.filter((run) => run.kind === (kind === "key" ? "keys" : "tick")).map(eventAt);
    return { call: lines, fork: lines.filter(({ number }) => number === FORK), switch: switches, fault: faults, output: outputs }[kind];
  }

  /** The pid of the process that ran last; 0 where that isn't known. */
  get lastRan() {
    const { calls, position } = this;
    return calls.knows(position) ? (lastBefore(calls.switches, position)?.pid ?? 0) : calls.last;
  }

  /** Back to the last call, switch, tick, key .. before here; whether there is one. */
  back(kind) {
    const position = kind === "step" ? this.position - 1 : lastBefore(this.linesOf(kind), this.position)?.at;
    if (position === undefined || position < 0) return false;
    this.seek(position);
    return true;
  }

  /** Runs to the next call, fork, switch, fault or output. */
  forwardTo(kind) {
    this.pause();
    this.forward = { kind, from: kind === "output" ? this.position - 1 : this.position };
  }

  // What is not known yet is noted from here on, until it is there, or nobody is ready any more.
  seekForward(until) {
    const { kind, from } = this.forward;
    const next = firstAfter(this.linesOf(kind), from);
    if (next) return this.found(kind, next);
    const wasWatched = this.isWatched;
    this.isWatched = true;
    this.go(Math.max(this.position, Math.min(this.calls.to, this.end)), until);
    const isFound = () => this.isLast(kind, from);
    let made = 1;
    while (made > 0 && !this.halt && performance.now() < until && !isFound()) {
      made = this.isAtEnd ? this.steps(QUANTUM.watched, isFound) : this.playRecorded(QUANTUM.watched, isFound);
    }
    this.isWatched = wasWatched;
    if (!isFound() && (made === 0 || this.halt)) this.miss(kind);
    return undefined;
  }

  isLast(kind, from) {
    const { lines, switches, faults, outputs } = this.calls;
    const last = { call: lines, fork: lines, switch: switches, fault: faults, output: outputs }[kind].at(-1);
    return last !== undefined && last.at > from && (kind !== "fork" || last.number === FORK);
  }

  // An output is there after its step, the rest before it.
  found(kind, { at }) {
    this.seek(kind === "output" ? at + 1 : at);
    this.stopped = { kind };
  }

  miss(kind) {
    this.forward = null;
    this.stopped = { kind: `no-${kind}` };
  }
}

// Gives a machine a tick, or the key of a run that is at a position.
function giveOne(machine, run, position) {
  if (run.kind === "tick") machine.tick();
  else machine.key(run.bytes[position - run.start]);
}

// Where a line has been typed, or the last of several ticks has come.
const eventAt = (run) => ({ at: run.start + run.times });
