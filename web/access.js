// Rules of access that a page can be tested by, as those of axe-core: which element breaks which.

const seen = (it) => it.checkVisibility({ visibilityProperty: true }) && !it.closest("[aria-hidden=true]");
const all = (selector) => [...document.querySelectorAll(selector)].filter(seen);
const nameOf = (it) => `${it.tagName.toLowerCase()}${it.id && `#${it.id}`}${it.className && `.${it.className}`}`;
const FOCUSABLE = "a[href], button, input, select, textarea, summary, [tabindex='0']";

const BY_IDS = ["aria-controls", "aria-labelledby", "aria-describedby"];
const GROUPS = "[role=toolbar], [role=tablist], [role=log], dialog";

const isMissing = (it, attribute) => (it.getAttribute(attribute) ?? "").split(" ").some((id) => id && !document.getElementById(id));

function skippedHeadings() {
  const levels = all("h1, h2, h3, h4, h5, h6").map((it) => ({ it, level: Number(it.tagName[1]) }));
  return levels.filter(({ level }, index) => level > (levels[index - 1]?.level ?? 0) + 1).map(({ it }) => it);
}

function twins() {
  const ids = [...document.querySelectorAll("[id]")];
  return ids.filter((it) => document.getElementById(it.id) !== it);
}

const isScrolled = (it) => it.scrollHeight > it.clientHeight + 1 && ["auto", "scroll"].includes(getComputedStyle(it).overflowY);
const hasStop = (it) => it.tabIndex >= 0 || [...it.querySelectorAll(FOCUSABLE)].some((one) => one.tabIndex >= 0 && seen(one));
const childrenBut = (selector, allowed) => all(selector).filter((it) => [...it.children].some((child) => !child.matches(allowed)));

const RULES = {
  "the page has a language and a title": () => (document.documentElement.lang && document.title ? [] : [document.documentElement]),
  "one main part, and one heading of level 1": () => (all("main").length === 1 && all("h1").length === 1 ? [] : [document.body]),
  "headings skip no level, and have a text": () => [...skippedHeadings(), ...all("h1, h2, h3").filter((it) => !it.textContent.trim())],
  "no id is there twice": twins,
  "what is named by its id is there": () => BY_IDS.flatMap((name) => all(`[${name}]`).filter((it) => isMissing(it, name))),
  "pictures have a text": () => all("img:not([alt]), canvas:not([aria-label]), svg:not([aria-label])"),
  "lists have items alone": () => [...childrenBut("ul, ol", "li"), ...childrenBut("dl", "dt, dd, div")],
  "tables have heads": () => all("table").filter((it) => !it.querySelector("th")),
  "a tab is in a list of tabs": () => all("[role=tab]").filter((it) => !it.closest("[role=tablist]")),
  "a panel of a tab has a name": () => all("[role=tabpanel]:not([aria-labelledby])"),
  "no stop of Tab is out of its turn": () => all("[tabindex]").filter((it) => it.tabIndex > 0),
  "no control is in another one": () => all(FOCUSABLE).filter((it) => it.parentElement.closest("a[href], button, select, summary")),
  "what scrolls can be reached by Tab": () => all("*").filter((it) => isScrolled(it) && !hasStop(it)),
  "groups of controls have names": () => all(GROUPS).filter((it) => !it.ariaLabel && !it.getAttribute("aria-labelledby")),
  "buttons have names": () => all("button, [role=button]").filter((it) => !(it.ariaLabel ?? it.textContent).trim()),
};

/** Which rules are broken, and by what. */
export function broken() {
  return Object.entries(RULES).flatMap(([rule, find]) => find().map((it) => `${rule}: ${nameOf(it)}`));
}
