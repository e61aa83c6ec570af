// The bar of time: marks for calls, ticks, keys and faults, and the position that is looked at.
import { counted, grouped, say } from "./words.js";

const SIDE = 8; // pixels at each end, for the thumb
const HEIGHT = 22;
const LANES = { calls: [0, 7], ticks: [8, 5], keys: [14, 7] }; // from where, and how high
const MOST_MARKS = 4000; // of a kind that are drawn

const xOf = (width, end, at) => SIDE + ((width - 2 * SIDE) * at) / Math.max(1, end);

// Lines are drawn once a pixel.
function drawLane(pen, width, end, positions, [top, height], colour) {
  pen.fillStyle = colour;
  let last = -1;
  for (const at of positions) {
    const x = Math.round(xOf(width, end, at));
    if (x !== last) pen.fillRect(x, top, 1, height);
    last = x;
  }
}

function drawFaults(pen, width, end, positions, colour) {
  pen.fillStyle = colour;
  for (const at of positions) {
    const x = xOf(width, end, at);
    pen.beginPath();
    pen.moveTo(x - 4, 0);
    pen.lineTo(x + 4, 0);
    pen.lineTo(x, 10);
    pen.fill();
  }
}

const some = (lines) => {
  const step = Math.ceil(lines.length / MOST_MARKS) || 1;
  return lines.filter((_, index) => index % step === 0).map(({ at }) => at);
};

/** Draws the marks. */
export function drawBar(canvas, driver) {
  const ratio = devicePixelRatio || 1;
  const width = canvas.clientWidth;
  Object.assign(canvas, { width: width * ratio, height: HEIGHT * ratio });
  const pen = canvas.getContext("2d");
  pen.scale(ratio, ratio);
  const style = getComputedStyle(canvas);
  const colour = (name) => style.getPropertyValue(`--mark-${name}`);
  const { end, calls, position } = driver;
  drawLane(pen, width, end, some(calls.lines), LANES.calls, colour("call"));
  drawLane(pen, width, end, some(driver.linesOf("tick")), LANES.ticks, colour("tick"));
  drawLane(pen, width, end, some(driver.linesOf("key")), LANES.keys, colour("key"));
  drawFaults(pen, width, end, some(calls.faults), colour("fault"));
  pen.fillStyle = colour("position");
  pen.fillRect(xOf(width, end, position) - 1, 0, 2, HEIGHT);
}

/** The event at a position of the bar. */
export function positionAt(canvas, x, end) {
  const share = (x - SIDE) / Math.max(1, canvas.clientWidth - 2 * SIDE);
  return Math.round(Math.max(0, Math.min(1, share)) * end);
}

/** Where one is, in words. */
export function positionText(driver) {
  const values = { position: grouped(driver.position), end: grouped(driver.end) };
  return driver.isAtEnd ? say("position-end", values) : say("position-of", values);
}

/** How many there were of each kind of event up to here. */
export function countsText(driver) {
  const { step, tick, keys } = driver.counts();
  return [counted(step, "count-step"), counted(tick, "count-tick"), counted(keys, "count-key")].join(", ");
}
