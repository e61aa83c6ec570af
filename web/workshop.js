// The view in which programs are written: an editor, what each line became, and exercises with their judgement.
import { button, byId, element, replace, stopAtOne } from "./elements.js";
import { Upload } from "./files.js";
import { assemble, put } from "./library.js";
import { elementsOf } from "./markdown.js";
import { say } from "./words.js";

const FRAMES = 256;
const FIRST_LINE = "hello";
const TAIL = 8; // lines of the console
const MOST_OF_LINE = 10_000; // steps that one line may take
const FIRST_TEXT = `# hello: prints a line
start:      li a0, 1                # write: to standard output,
            la a1, text             # from here,
            li a2, 14               # so many bytes
            li a7, 16
            ecall
            li a0, 0                # exit, with status 0
            li a7, 2
            ecall
text:       .ascii "hello, kernel\\n"
`;

// What is written: of which exercise, in which language, for which typed line.
const FREE = { exercise: "", language: "asm", line: FIRST_LINE, text: FIRST_TEXT, test: "", seed: 0 };

/** The workshop. `page` boots machines, types and shows; `exercises` may be null. */
export class Workshop {
  constructor(module, page, exercises) {
    this.module = module;
    this.page = page;
    this.exercises = exercises;
    this.works = new Map(); // what was written of each exercise
    this.made = { program: null, rows: [], faults: [] };
    this.booted = null; // the last image with a program of the workshop, and what was written then
    this.hints = 0;
    byId("task").hidden = !exercises;
    if (exercises) {
      const items = exercises.all.map(({ name, title }) => element("option", { value: name }, title));
      replace(byId("exercises"), [element("option", { value: "" }, say("no-exercise")), ...items]);
    }
    this.open(exercises ? this.begin(exercises.all[0].name) : { ...FREE });
  }

  get exercise() {
    return this.exercises?.find(this.work.exercise) ?? null;
  }

  get name() {
    return this.exercise?.program ?? this.work.line.trim().split(/\s+/)[0];
  }

  // What an exercise begins with.
  begin(name) {
    const exercise = this.exercises.find(name);
    return exercise ? { ...FREE, exercise: name, line: exercise.tests[0].type[0], text: exercise.start } : { ...FREE };
  }

  choose(name) {
    this.works.set(this.work.exercise, this.work);
    this.open(this.works.get(name) ?? this.begin(name));
  }

  /** Shows what is written: also that of a link. */
  open(work) {
    this.work = { ...FREE, ...work };
    byId("exercises").value = this.work.exercise;
    byId("source").value = this.work.text;
    byId("language").value = this.work.language;
    byId("line").value = this.work.line;
    this.hints = 0;
    this.showTask();
    this.showResults([]);
    this.assemble();
  }

  // ---- the exercise

  showTask() {
    const { exercise } = this;
    replace(byId("task-text"), exercise ? elementsOf(exercise.text) : [element("p", {}, say("free-text"))]);
    this.showHints();
    byId("check").hidden = !exercise;
  }

  showHints() {
    const all = this.exercise?.hints ?? [];
    byId("hint").hidden = this.hints >= all.length;
    replace(byId("hints"), all.slice(0, this.hints).map((hint) => element("li", {}, hint)));
  }

  hint() {
    this.hints += 1;
    this.showHints();
  }

  /** Judges the program by each test of the exercise, one after the other. */
  async check() {
    if (!this.assemble()) return this.page.say(say("faults-first"));
    const { exercise, work, made } = this;
    const results = [];
    work.seed += 1;
    for (const { name, points, hint } of exercise.tests) {
      const found = this.exercises.run(exercise, name, work.seed, made.program);
      results.push({ name, points, hint, ...found });
      this.showResults(results);
      this.page.say(say("is-checked", { name }));
      await new Promise((done) => setTimeout(done));
      if (this.work !== work) return undefined; // another exercise was chosen
    }
    const score = results.reduce((sum, { points, said }) => sum + (said.length > 0 ? 0 : points), 0);
    const isRight = score === exercise.points;
    return this.page.say(say(isRight ? "exercise-right" : "exercise-wrong", { score, points: exercise.points }));
  }

  showResults(results) {
    replace(byId("results"), results.map((result, index) => this.resultItem(result, index)));
  }

  resultItem({ name, points, hint, said, schedule, events }, index) {
    const isRight = said.length === 0;
    const head = element("b", {}, say(isRight ? "test-right" : "test-wrong", { name, points }));
    if (isRight) return element("li", { class: "right" }, head);
    const ticks = schedule ? [element("p", {}, say("under-schedule", { schedule }))] : [];
    const words = said.slice(0, 4).map((sentence) => element("p", {}, sentence));
    const more = hint ? [element("p", {}, say("hint-is", { hint }))] : [];
    const show = button({ id: `result-${index}` }, say("show"), () => this.show(name, events));
    return element("li", { class: "wrong" }, head, " ", show, ...words, ...ticks, ...more);
  }

  // The machine at the end of a test's run, where one goes on, and back.
  show(name, events) {
    this.work.test = name;
    this.boot(events);
    this.page.lookIn("run");
    this.page.say(say("shown-test", { name }));
  }

  // ---- the program

  edit() {
    this.work.text = byId("source").value;
    this.work.language = byId("language").value;
    this.work.line = byId("line").value;
    this.assemble();
  }

  /** Assembles the text; whether it has no fault. */
  assemble() {
    this.made = assemble(this.module, this.work.language, this.work.text);
    const items = this.made.faults.map(({ line, column, text }) => {
      const at = column ? say("at-column", { line, column }) : say("at-line", { line });
      return element("li", {}, button({ id: `fault-${line}-${column}` }, at, () => this.goTo(line)), ` ${text}`);
    });
    replace(byId("faults"), items);
    this.showGutter(null);
    this.showRows();
    return this.made.program !== null;
  }

  // Puts the cursor on a line of the text.
  goTo(line) {
    const source = byId("source");
    const at = this.work.text.split("\n").slice(0, line - 1).join("\n").length + (line > 1 ? 1 : 0);
    source.focus();
    source.setSelectionRange(at, at);
  }

  // The image that the program is on: that of a test has its files, too.
  image() {
    const { exercise, work, made } = this;
    if (!exercise) return put(this.module, this.page.firstImage, `/${this.name}`, made.program);
    const test = work.test ? this.exercises.test(exercise, work.test, work.seed) : null;
    return this.exercises.image(exercise, made.program, test?.files);
  }

  /** The images that a link may name: that of what is written, if it has no fault. */
  images() {
    if (this.made.program === null) return [];
    this.booted = { image: this.image(), work: { ...this.work } };
    return [this.booted.image];
  }

  boot(events = []) {
    const [image] = this.images();
    if (!image) throw new Error(say("faults-first"));
    this.page.boot(image, this.exercise?.machine.frames ?? FRAMES, events);
  }

  /** Puts the program on the disk, boots, and types the line. */
  run() {
    if (!Upload.isName(this.name)) throw new Error(say("bad-name"));
    this.work.test = "";
    this.boot();
    this.page.driver.type([...new TextEncoder().encode(`${this.work.line}\n`)]);
  }

  // The row of the process that is looked at, if it runs this program.
  rowOf(process) {
    const isOwn = process && process.state !== "ended" && this.page.nameOf(process.pid) === this.name;
    return isOwn ? this.made.rows.findLast(({ address }) => address <= Number(process.pc)) : undefined;
  }

  /** The address of a label of the text; `null` where there is none. */
  addressOf(label) {
    const line = this.work.text.split("\n").findIndex((one) => one.trimStart().startsWith(`${label}:`)) + 1;
    const row = line > 0 && this.made.rows.find((one) => one.line >= line);
    return row ? BigInt(row.address) : null;
  }

  /** Goes on until another line of the text is to be done, or nobody is ready. */
  nextLine() {
    const { driver } = this.page;
    const lineNow = () => this.rowOf(this.page.lookedAt())?.line;
    const from = lineNow();
    let steps = 0;
    do {
      driver.step();
      steps += 1;
    } while (driver.isBusy && !driver.halt && steps < MOST_OF_LINE && (lineNow() ?? from) === from);
    this.page.refresh();
  }

  // ---- what is shown

  /** What there is to see of the machine: the line that is done next, breakpoints, and the end of the console. */
  showMachine(process) {
    const row = this.rowOf(process);
    this.showGutter(row?.line);
    this.showRows(row);
    byId("tail").textContent = this.page.terminal.text.split("\n").slice(-TAIL).join("\n");
  }

  showGutter(current) {
    const faulty = new Set(this.made.faults.map(({ line }) => line));
    const lines = this.work.text.split("\n").map((_, index) => {
      const mark = index + 1 === current ? "current" : faulty.has(index + 1) ? "fault" : "";
      return element("li", { class: mark }, String(index + 1));
    });
    replace(byId("gutter"), lines);
  }

  showRows(current) {
    const { breaks } = this.page.driver ?? { breaks: new Set() };
    const buttons = [];
    let before = 0;
    const items = this.made.rows.map((row) => {
      const { line, address, text } = row;
      const shown = address.toString(16).padStart(5, "0");
      const isBroken = breaks.has(address);
      const title = say(isBroken ? "break-off" : "break-on", { address: `0x${address.toString(16)}` });
      const words = { class: "mark", id: `row-${address}`, "aria-pressed": isBroken, title, "aria-label": title };
      buttons.push(button(words, isBroken ? "●" : "○", () => this.page.toggleBreak(address)));
      const number = element("i", {}, `${line && line !== before ? String(line) : ""}`.padStart(4));
      before = line;
      const now = row === current ? { class: "current", "aria-current": "true" } : {};
      return element("li", now, buttons.at(-1), number, element("i", {}, ` ${shown}  `), text);
    });
    stopAtOne(buttons, buttons[this.made.rows.indexOf(current)]);
    replace(byId("rows"), items);
    byId("rows").querySelector(".current")?.scrollIntoView({ block: "nearest" });
  }
}

/** Lets the controls of the view do their work. `guarded` says what goes wrong. */
export function wireWorkshop(workshop, guarded) {
  const on = (id, event, act) => byId(id).addEventListener(event, guarded(act));
  on("exercises", "change", () => workshop.choose(byId("exercises").value));
  for (const id of ["source", "line"]) on(id, "input", () => workshop.edit());
  on("language", "change", () => workshop.edit());
  on("hint", "click", () => workshop.hint());
  on("put-and-run", "click", () => workshop.run());
  on("check", "click", () => workshop.check());
  on("next-line", "click", () => workshop.nextLine());
  byId("source").addEventListener("scroll", () => {
    byId("gutter").scrollTop = byId("source").scrollTop;
  });
}
