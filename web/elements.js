// Elements of the page.

/** An element with attributes and children; a text is one of these. */
export function element(name, attributes, ...children) {
  const made = document.createElement(name);
  for (const [word, value] of Object.entries(attributes)) if (value !== "" && value !== null) made.setAttribute(word, value);
  made.append(...children);
  return made;
}

/** A button that calls `act`. */
export function button(attributes, text, act) {
  const made = element("button", { type: "button", ...attributes }, text);
  made.addEventListener("click", act);
  return made;
}

/** Gives an element other children where they differ. What had the focus has it again, by its id. */
export function replace(parent, children) {
  const made = element("div", {}, ...children);
  if (made.innerHTML === parent.innerHTML) return;
  const focused = parent.contains(document.activeElement) ? document.activeElement.id : "";
  parent.replaceChildren(...made.childNodes);
  if (focused) document.getElementById(focused)?.focus({ preventScroll: true });
}

export const byId = (id) => document.getElementById(id);

const MOVES = { ArrowRight: 1, ArrowDown: 1, ArrowLeft: -1, ArrowUp: -1 };
const STOPS = "button, input[type=checkbox], summary";

const isSeen = (one) => one.offsetParent !== null;

// The keys of the arrows go from one control of a group to the next.
function move(event, group) {
  if (!event.target.matches(STOPS) || event.ctrlKey || event.altKey || event.metaKey) return;
  const all = [...group.querySelectorAll(STOPS)].filter(isSeen);
  const at = all.indexOf(event.target);
  const to = { Home: 0, End: all.length - 1 }[event.key] ?? (event.key in MOVES ? (at + MOVES[event.key] + all.length) % all.length : -1);
  if (at < 0 || to < 0) return;
  event.preventDefault();
  all[to].focus();
}

/** Makes one stop of Tab of a group of controls: the arrows go on from there. */
export function group(area) {
  area.addEventListener("keydown", (event) => move(event, area));
  if (!area.matches("[role=toolbar], [role=tablist]")) return;
  const all = () => [...area.querySelectorAll(STOPS)];
  const settle = (chosen) => all().forEach((one) => one.setAttribute("tabindex", one === chosen ? 0 : -1));
  area.addEventListener("focusin", (event) => event.target.matches(STOPS) && settle(event.target));
  settle(all()[0]);
}

/** Of controls that are made together only the chosen one is a stop, or else the first. */
export function stopAtOne(controls, chosen) {
  const one = chosen ?? controls[0];
  for (const control of controls) control.setAttribute("tabindex", control === one ? 0 : -1);
  return controls;
}

/** Hands bytes to the reader as a file. */
export function download(name, bytes) {
  const address = URL.createObjectURL(new Blob([bytes], { type: "application/octet-stream" }));
  const link = element("a", { href: address, download: name });
  document.body.append(link);
  link.click();
  link.remove();
  setTimeout(() => URL.revokeObjectURL(address), 10_000);
}
