// Tries a timer interrupt at each of the next positions, each on a copy of the machine, and returns the outcomes.
import { Halt } from "./machine.js";

const MOST_POSITIONS = 20_000;
const MOST_STEPS = 2_000_000; // that a machine takes until nobody is ready

/** A search from a machine as it stands. `outcomes` has how often each came, and after how many steps first. */
export class Search {
  constructor(machine) {
    this.walker = machine.copy();
    this.tried = 0;
    this.at = 0;
    this.isDone = false;
    this.outcomes = new Map();
    this.note(this.outcomeOf(machine.copy(), false), null);
  }

  /** Tries some, until a time. */
  some(until) {
    while (!this.isDone && performance.now() < until) this.one();
  }

  one() {
    if (this.walker.running()) this.note(this.outcomeOf(this.walker.copy(), true), this.at);
    this.isDone = this.at >= MOST_POSITIONS || !this.walks();
    if (this.isDone) this.close();
  }

  walks() {
    this.at += 1;
    try {
      return this.walker.run(1, () => {}) === 1;
    } catch (error) {
      if (error instanceof Halt) return false;
      throw error;
    }
  }

  // What a machine prints until nobody is ready. It is closed then.
  outcomeOf(machine, isTicked) {
    let end = "";
    try {
      if (isTicked) machine.tick();
      machine.run(MOST_STEPS, () => {});
    } catch (error) {
      if (!(error instanceof Halt)) throw error;
      end = `(${error.message})`;
    }
    const text = new TextDecoder().decode(Uint8Array.from(machine.console())) + end;
    machine.close();
    return text;
  }

  note(text, at) {
    const found = this.outcomes.get(text) ?? { text, times: 0, first: at, isPlain: at === null };
    found.times += at === null ? 0 : 1;
    found.first ??= at;
    this.outcomes.set(text, found);
    if (at !== null) this.tried += 1;
  }

  close() {
    this.walker?.close();
    this.walker = null;
    this.isDone = true;
  }
}
