// The descriptors and pipes of a machine, as its library shows them, what processes wait for, and the programs that they began.
import { EXEC, FORK, SLEEP, WAIT } from "./calls.js";

const ROOM = 512; // bytes of a pipe
const ENDS = { "read-end": "readers", "write-end": "writers" };

// What a process holds, and at which of its descriptors it waits.
function heldBy(machine, pid) {
  const awaited = machine.awaited(pid);
  return machine.descriptors(pid).map((held) => ({ ...held, pid, waits: awaited?.descriptor === held.descriptor }));
}

// The ends of pipes that a process holds, each with its descriptors.
function addEnds(pipes, held) {
  for (const { kind, number, pid, descriptor, waits } of held.filter((one) => one.kind in ENDS)) {
    const pipe = pipes.get(number) ?? { number, readers: [], writers: [] };
    pipes.set(number, pipe);
    const holders = pipe[ENDS[kind]];
    const holder = holders.find((one) => one.pid === pid) ?? { pid, descriptors: [], waits: false };
    if (!holders.includes(holder)) holders.push(holder);
    holder.descriptors.push(descriptor);
    holder.waits ||= waits;
  }
}

/** The pipes that somebody holds: their bytes, who holds which end, and who waits. */
export function pipesOf(machine, processes) {
  const pipes = new Map();
  for (const { pid, state } of processes) if (state !== "ended") addEnds(pipes, heldBy(machine, pid));
  const all = [...pipes.values()].sort((one, two) => one.number - two.number);
  return all.map((pipe) => ({ ...pipe, bytes: machine.pipe(pipe.number), room: ROOM }));
}

// What a read or a write waits for: who holds the other end of a pipe could end that, or else a typed line.
function waitAtPipe(machine, processes, { kind, number }) {
  const pipe = kind in ENDS ? pipesOf(machine, processes).find((one) => one.number === number) : null;
  if (!pipe) return { kind: "console" };
  const holders = kind === "read-end" ? pipe.writers : pipe.readers;
  return { kind: kind === "read-end" ? "bytes" : "room", pipe: number, pids: holders.map(({ pid }) => pid) };
}

/** What a process waits for, and the pids of those who could end that by what they do next; `null` where it doesn't wait. */
export function waitOf(machine, processes, pid) {
  const waiting = machine.waiting(pid);
  if (!waiting) return null;
  const { call, first, since } = waiting;
  if (call === WAIT) return { kind: "child", pids: processes.filter(({ parent }) => parent === pid).map((child) => child.pid) };
  if (call === SLEEP) return { kind: "ticks", tick: (since + Math.max(0, first)) >>> 0 };
  const held = machine.awaited(pid);
  return held ? waitAtPipe(machine, processes, held) : { kind: "call", call };
}

/** The path of an inode; empty where no name leads there. */
export function pathOf(machine, inode, directory = undefined, above = "/", depth = 8) {
  for (const file of machine.names(directory)) {
    if (file.inode === inode) return above + file.name;
    if (file.kind !== "directory" || depth === 0) continue;
    const below = pathOf(machine, inode, file.inode, `${above}${file.name}/`, depth - 1);
    if (below) return below;
  }
  return "";
}

/** The path of the program that a process began last, where its calls are known. */
export function programOf(calls, pid, position) {
  let path = null;
  for (let at = calls.lines.length - 1, wanted = pid; at >= 0; at -= 1) {
    const line = calls.lines[at];
    if (line.at >= position) continue;
    if (line.pid === wanted && line.number === EXEC && line.answer >= 0 && line.end !== null && line.end <= position) {
      path = line.path;
      break;
    }
    if (line.number === FORK && line.answer === wanted) wanted = line.pid;
  }
  return path;
}
