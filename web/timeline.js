// Copies of a machine at positions of its record, so that it is soon back at any position; and the times that were left.

const ROOM = 64 << 20; // bytes of all copies
const FIRST_GAP = 1 << 14; // events

/** Copies at growing distances. The one at the beginning stays. */
export class Snapshots {
  constructor() {
    this.all = [];
    this.gap = FIRST_GAP;
    this.size = 0; // bytes of a copy
  }

  /** The first one, of a machine that has just booted. */
  begin(machine) {
    const before = machine.heap.used;
    this.add(machine, 0, 0);
    this.size = machine.heap.used - before;
  }

  // Whether one more fits, and the machine itself.
  get hasRoom() {
    return (this.all.length + 2) * this.size <= ROOM;
  }

  add(machine, position, output) {
    this.all.push({ position, output, machine: machine.copy() });
  }

  /** Keeps a copy where the last one is far enough. `output`: how many bytes the console has written. */
  keep(machine, position, output) {
    if (position - this.all.at(-1).position < this.gap) return;
    if (!this.hasRoom) this.thin();
    if (this.hasRoom && position - this.all.at(-1).position >= this.gap) this.add(machine, position, output);
  }

  // Every second one goes.
  thin() {
    this.gap *= 2;
    this.drop((_, index) => index % 2 === 1);
  }

  drop(isOld) {
    const kept = this.all.filter((one, index) => !isOld(one, index));
    for (const one of this.all) if (!kept.includes(one)) one.machine.close();
    this.all = kept;
  }

  /** The last one that doesn't stand after a position. */
  before(position) {
    return this.all.findLast((one) => one.position <= position);
  }

  /** Those after a position go. */
  cut(position) {
    this.drop((one) => one.position > position);
  }

  close() {
    this.drop(() => true);
  }
}

/** Times that were left: records, and where the reader left them. */
export class Branches {
  constructor() {
    this.all = [];
    this.number = 0;
  }

  /** Keeps a record that was left at a position. */
  keep(record, position) {
    this.number += 1;
    this.all.push({ number: this.number, record, position });
  }

  take(number) {
    const found = this.all.find((branch) => branch.number === number);
    this.all = this.all.filter((branch) => branch !== found);
    return found?.record;
  }
}
