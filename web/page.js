// The page: a machine, what it is given by buttons and keys, and what is shown of it in four views over one line of time.
import { countsText, drawBar, positionAt, positionText } from "./bar.js";
import { programOf, waitOf } from "./descriptors.js";
import { Disk } from "./disk.js";
import { blockAt, showBlock, showBlocks, showInodes, showMap, showMapLegend, showSuper } from "./diskview.js";
import { REGISTERS } from "./disassembly.js";
import { Driver } from "./driver.js";
import { button, byId, download, element, group, replace } from "./elements.js";
import { faultOf } from "./faults.js";
import { Exercises } from "./exercises.js";
import { Upload, showFiles } from "./files.js";
import { addressOf, showDescriptors, showPipes, showWalk } from "./inside.js";
import { canWrite, locate, put } from "./library.js";
import { loadModule } from "./machine.js";
import { Names } from "./names.js";
import { eventsOf, markOf, packText, sessionOf, toFragment, unpackText, wordsOf } from "./record.js";
import { Search } from "./search.js";
import { Terminal } from "./terminal.js";
import { bytesText, processLines, showCalls, showCode, showPages, showPids, showProcesses, showRegisters } from "./views.js";
import { counted, grouped, say } from "./words.js";
import { Workshop, wireWorkshop } from "./workshop.js";

const FRAMES = 256;
const LONGEST = 250; // milliseconds that one picture may stand for
const SHOW_EVERY = 100; // milliseconds
const SHOW_FILES_EVERY = 1000;
const SHARE = 10; // of the time of a busy machine, what is shown takes one part
const SEARCH_TIME = 30; // milliseconds of a picture that a search may take
const PART = 100_000; // steps of a machine that goes on until nobody is ready
const MOST_PARTS = 20;
const PAGE_SIZE = 4096;
const MOST_SHOWN = 1 << 16;
const VIEWS = ["run", "inside", "disk", "write"];
const NOTED = ["call", "switch"]; // what is known of noted calls alone
const THEMES = ["", "dark", "light"];
const SYSTEM_DARK = matchMedia("(prefers-color-scheme: dark)");
// The theme that was chosen; where none was, the system's is shown.
let theme = "";
const FIRST_BLOCK = 1;
const ROOT = 1;

/** What the reader sees and does. */
class Page {
  constructor(module, image) {
    this.module = module;
    this.firstImage = image;
    this.image = image;
    this.names = new Names((file, address) => locate(module, file, address));
    this.chosen = 1;
    this.address = { text: "pc", page: 0 };
    this.block = FIRST_BLOCK;
    this.inode = ROOT;
    this.view = "run";
    this.only = false;
    this.registers = { before: null, now: null, pid: 0 };
    this.shown = { time: 0, cost: 0, files: 0, state: "", filesPosition: -1, faults: 0, turns: -1, written: 0 };
    this.pace = { time: 0, steps: 0, text: "" };
    this.upload = null;
    this.hidden = []; // parts of the console's bytes that are shown otherwise
    this.finder = null;
    this.workshop = null; // where the module assembles
    this.terminal = new Terminal(
      { frame: byId("terminal"), screen: byId("screen"), keys: byId("keys"), spoken: byId("spoken") },
      {
        type: (bytes) => this.driver.type(bytes),
        showProcesses: () => this.terminal.note(processLines(this.driver.machine.processes())),
        tell: (text) => this.say(text),
      },
    );
  }

  say(text) {
    byId("said").textContent = text;
  }

  /** Another machine, with the events of a session or none. */
  boot(image, frames, events = []) {
    const begin = performance.now();
    const driver = new Driver(this.module, image, frames, events);
    const time = performance.now() - begin;
    this.endSearch();
    if (this.driver) driver.breaks = this.driver.breaks;
    this.driver?.close();
    this.driver = driver;
    this.image = image;
    this.upload = null;
    this.hidden = [];
    this.names.forget();
    this.terminal.clear();
    this.obeyControls();
    byId("frames").value = String(frames);
    byId("first-image").hidden = image === this.firstImage;
    this.shown = { ...this.shown, state: "", filesPosition: -1, faults: 0, turns: driver.turns, written: 0 };
    this.say(say("booted", { time: time.toFixed(0) }));
  }

  obeyControls() {
    this.driver.rate = Number(byId("rate").value);
    this.driver.hasClock = byId("clock").checked;
    this.driver.watch(byId("watch").checked);
  }

  // ---- what happens

  frame(time) {
    const elapsed = Math.min(time - (this.time ?? time), LONGEST);
    this.time = time;
    this.driver.frame(elapsed);
    this.print();
    this.tellStop();
    this.searchSome();
    this.markPrompt();
    this.count(time);
    this.showIfDue(time);
  }

  // What the console has written since it was shown; all of it anew where one went to another position.
  print() {
    const { driver, shown } = this;
    if (driver.turns !== shown.turns) this.showAnew();
    else if (driver.written > shown.written) this.write(driver.output.slice(shown.written, driver.written));
    shown.turns = driver.turns;
    shown.written = driver.written;
    if (this.upload && !driver.hasTyped && !driver.isBusy) this.endUpload();
  }

  showAnew() {
    this.upload = null;
    this.terminal.reset(this.visible());
  }

  write(bytes) {
    if (this.upload) this.upload.take(bytes);
    else this.terminal.write(bytes);
  }

  // The console's bytes without those that aren't shown.
  visible() {
    const bytes = this.driver.text;
    for (const { from, to, text } of this.hidden.toReversed()) {
      if (to <= bytes.length) bytes.splice(from, to - from, ...new TextEncoder().encode(text));
    }
    return bytes;
  }

  endUpload() {
    this.terminal.note(this.upload.shown);
    this.hidden.push({ from: this.upload.from, to: this.driver.written, text: this.upload.shown });
    this.say(say("on-disk", { name: this.upload.name }));
    this.upload = null;
  }

  // Why the machine paused by itself.
  tellStop() {
    const { stopped } = this.driver;
    if (!stopped) return;
    this.driver.stopped = null;
    this.say(say(`stopped-${stopped.kind}`, { pc: `0x${(stopped.pc ?? 0).toString(16)}` }));
    this.refresh();
  }

  // When the machine waits for a key for the first time.
  markPrompt() {
    if (this.isPrompted || this.driver.isBusy) return;
    this.isPrompted = true;
    performance.mark("prompt");
  }

  run(isRunning) {
    if (isRunning) this.driver.run();
    else this.driver.pause();
    this.refresh();
  }

  step() {
    this.driver.step();
    if (!this.driver.isBusy) this.say(say("nobody-ready"));
    this.refresh();
  }

  /** Goes to another position of the time line. */
  seek(position) {
    this.driver.seek(position);
    this.refresh();
  }

  back(kind) {
    if (NOTED.includes(kind) && !this.driver.calls.knows(this.driver.position)) return this.noteFirst(() => this.back(kind));
    if (!this.driver.back(kind)) this.say(say(`no-back-${kind}`));
    return this.refresh();
  }

  forwardTo(kind) {
    this.driver.forwardTo(kind);
    this.refresh();
  }

  // The calls of a session that was replayed without looking have to be looked at first.
  noteFirst(act) {
    this.driver.pause();
    this.driver.note();
    this.driver.noteUntil(Infinity);
    this.refresh();
    act();
  }

  refresh() {
    this.shown.state = "";
  }

  choose(pid) {
    this.chosen = pid;
    this.refresh();
  }

  chooseByHand(pid) {
    byId("follow").checked = false;
    this.choose(pid);
  }

  // The process that is shown: the one that runs or ran last, where that is wished.
  chooseAmong(processes) {
    const withPid = (wanted) => processes.find(({ pid }) => pid === wanted);
    const running = () => processes.find(({ state }) => state === "running") ?? withPid(this.driver.lastRan);
    const process = (byId("follow").checked && running()) || withPid(this.chosen) || processes.at(-1);
    this.chosen = process?.pid;
    return process;
  }

  lookedAt() {
    return this.chooseAmong(this.driver.machine.processes());
  }

  choosePage(number) {
    byId("address").value = `0x${(number * PAGE_SIZE).toString(16)}`;
    this.refresh();
  }

  toggleBreak(address) {
    const { breaks } = this.driver;
    if (!breaks.delete(address)) breaks.add(address);
    this.refresh();
  }

  /** Shows one of the views. */
  lookIn(view) {
    this.view = VIEWS.includes(view) && (view !== "write" || this.workshop) ? view : "run";
    for (const name of VIEWS) {
      byId(`view-${name}`).hidden = name !== this.view;
      byId(`tab-${name}`).setAttribute("aria-selected", name === this.view);
    }
    this.refresh();
  }

  // ---- a search

  search() {
    this.endSearch();
    this.driver.pause();
    this.finder = new Search(this.driver.machine);
    this.finder.from = this.driver.position;
    byId("outcomes-section").hidden = false;
    this.lookIn("run");
  }

  endSearch() {
    this.finder?.close();
    this.finder = null;
    byId("outcomes-section").hidden = true;
  }

  searchSome() {
    if (!this.finder || this.finder.isShown) return;
    this.finder.some(performance.now() + SEARCH_TIME);
    this.finder.isShown = this.finder.isDone;
    this.showOutcomes();
  }

  showOutcomes() {
    const { tried, outcomes, isDone } = this.finder;
    const values = { positions: counted(tried, "count-step"), outcomes: counted(outcomes.size, "outcome-count") };
    byId("outcomes-said").textContent = say(isDone ? "tried" : "tries", values);
    replace(byId("outcomes"), [...outcomes.values()].map((outcome, index) => this.outcomeItem(outcome, index)));
  }

  outcomeItem({ text, times, first, isPlain }, index) {
    const count = isPlain ? say("outcome-plain", { times: grouped(times) }) : say("outcome-times", { times: grouped(times), first: grouped(first) });
    const shown = button({ id: `outcome-${index}` }, say("show"), () => this.tryOutcome(first, isPlain));
    return element("li", {}, element("pre", {}, text), element("span", {}, count), shown);
  }

  // Does what the search did on a copy: some steps, a tick, and steps until nobody is ready.
  tryOutcome(first, isPlain) {
    const { driver, finder } = this;
    driver.seek(finder.from);
    driver.leave();
    if (!isPlain) {
      driver.steps(first);
      driver.tick();
    }
    let left = MOST_PARTS;
    while (left > 0 && driver.steps(PART) > 0) left -= 1;
    this.say(isPlain ? say("shown-plain") : say("shown-tick", { first: grouped(first) }));
    this.refresh();
  }

  // ---- what is shown

  count(time) {
    const { step } = this.driver.counts();
    if (time - this.pace.time < 500) return;
    const rate = ((step - this.pace.steps) / (time - this.pace.time)) * 1000;
    this.pace = { time, steps: step, text: rate > 0 && this.driver.isRunning ? say("pace", { steps: grouped(Math.round(rate)) }) : "" };
    this.showStatus();
  }

  stateText() {
    const { driver } = this;
    if (driver.halt) return say("state-stopped", { why: driver.halt.message });
    if (driver.noter) return say("state-notes", { percent: Math.floor((100 * driver.noter.position) / driver.position) });
    if (driver.isBound) return say("state-goes");
    if (driver.isRunning) return say(driver.isAtEnd ? "state-runs" : "state-replays");
    return say("state-pauses");
  }

  showStatus() {
    const { driver } = this;
    const frames = say("frames-free", { free: grouped(driver.machine.freeFrames()), frames: grouped(driver.record.frames) });
    byId("status").textContent = [this.stateText(), countsText(driver), frames, this.pace.text].filter((part) => part).join(" · ");
    byId("run").textContent = driver.isRunning || driver.isBound ? say("pause") : say("run");
  }

  // What has to be another for something to be shown anew.
  get state() {
    const { driver } = this;
    return [driver.position, driver.end, driver.turns, driver.isRunning, driver.isBound, driver.calls.to, driver.branches.number, this.view].join(" ");
  }

  showIfDue(time) {
    const { state } = this;
    const isBusy = this.driver.isRunning && this.driver.isBusy;
    const every = isBusy ? Math.max(SHOW_EVERY, this.shown.cost * SHARE) : this.shown.state === "" ? 0 : SHOW_EVERY;
    if (state !== this.shown.state && time - this.shown.time >= every) {
      const begin = performance.now();
      this.show();
      Object.assign(this.shown, { state, time, cost: performance.now() - begin });
    }
    const { position } = this.driver;
    if (position !== this.shown.filesPosition && time - this.shown.files >= (isBusy ? SHOW_FILES_EVERY : SHOW_EVERY)) this.showSlow(time, position);
  }

  // What takes a look at the whole disk.
  showSlow(time, position) {
    Object.assign(this.shown, { filesPosition: position, files: time });
    this.names.forget();
    if (this.view === "run") this.showFiles();
    if (this.view === "disk") this.showDisk();
  }

  show() {
    this.showStatus();
    this.showTime();
    this.showFault();
    if (this.view === "run") this.showRun();
    if (this.view === "inside") this.showInside();
    if (this.view === "disk" && this.shown.state === "") this.showDisk();
    if (this.view === "write") this.workshop.showMachine(this.lookedAt());
    if (this.view === "run" && this.shown.state === "") this.shown.filesPosition = -1;
  }

  showTime() {
    const { driver } = this;
    drawBar(byId("marks"), driver);
    const bar = byId("position");
    if (Number(bar.max) !== driver.end) bar.max = String(driver.end);
    if (document.activeElement !== bar || Number(bar.value) !== driver.position) bar.value = String(driver.position);
    bar.setAttribute("aria-valuetext", positionText(driver));
    byId("position-text").textContent = positionText(driver);
    this.showBranches();
  }

  showBranches() {
    const { all } = this.driver.branches;
    byId("branches-label").hidden = all.length === 0;
    const text = ({ number, record, position }) => say("branch", { number, position: grouped(position), end: grouped(record.length) });
    const items = all.map((branch) => element("option", { value: branch.number }, text(branch)));
    replace(byId("branches"), [element("option", { value: "" }, counted(all.length, "branch-count")), ...items]);
  }

  // A fault that came since the last look, in words.
  showFault() {
    const { faults } = this.driver.calls;
    const last = faults.findLast(({ at }) => at < this.driver.position);
    byId("fault").textContent = last ? say("fault-ended", { pid: last.pid, text: this.faultText(last) }) : "";
    byId("fault").hidden = !last;
  }

  // A fault, with the function and the line that the program's file has for its pc.
  faultText({ pid, pc, text }) {
    const place = this.placeOf(pid, pc);
    return place ? say("fault-in", { text, place }) : text;
  }

  // The path that a process gave to exec last, if all calls are known.
  pathOf(pid) {
    const { calls, position } = this.driver;
    return calls.from === 0 && calls.knows(position) ? programOf(calls, pid, position) : null;
  }

  nameOf(pid) {
    const path = this.pathOf(pid);
    return path ? path.split("/").at(-1) : (this.names.programOf(this.driver.machine, pid)?.name ?? "");
  }

  // What the program of a process says of an address; empty where it says nothing of it.
  placeOf(pid, address) {
    const { machine } = this.driver;
    const path = this.pathOf(pid);
    const program = path ? this.names.programAt(machine, path) : this.names.programOf(machine, pid);
    return program ? this.names.placeIn(program, address) : "";
  }

  showRun() {
    const { machine } = this.driver;
    const processes = machine.processes();
    const process = this.chooseAmong(processes);
    showProcesses(byId("processes"), processes, {
      nameOf: (pid) => this.nameOf(pid),
      waitOf: (pid) => waitOf(machine, processes, pid),
      chosen: process?.pid,
      choose: (pid) => this.chooseByHand(pid),
    });
    byId("coming").textContent = say("coming", { ticks: counted(machine.ticks(), "count-tick"), pid: machine.comingPid() });
  }

  showInside() {
    const { driver } = this;
    const { machine, calls, position } = driver;
    if (driver.isToBeNoted) driver.note();
    const processes = machine.processes();
    const process = this.chooseAmong(processes);
    if (!process) return;
    const nameOf = (pid) => this.nameOf(pid);
    showPids(byId("pids"), processes, nameOf, process.pid);
    this.keepRegisters(process);
    showRegisters(byId("registers"), process, this.registers.before);
    const placeOf = (address) => this.placeOf(process.pid, address);
    showCode(byId("code"), machine, process, { breaks: driver.breaks, placeOf, toggle: (address) => this.toggleBreak(address) });
    const fault = process.state === "waiting" || process.state === "ended" ? null : faultOf(machine, process);
    byId("next-fault").textContent = fault ? say("next-fault", { text: this.faultText({ ...process, text: fault }) }) : "";
    const faults = calls.faults.filter(({ pid, at }) => pid === process.pid && at < position);
    showCalls(byId("calls"), calls.of(process.pid, position), faults.map((one) => ({ at: one.at, text: this.faultText(one) })));
    this.showHeld(processes, process, nameOf);
    this.showMemory(process, processes);
  }

  showHeld(processes, process, nameOf) {
    const { calls, machine, position } = this.driver;
    byId("note-all").hidden = calls.from === 0 && calls.knows(position);
    showDescriptors(byId("descriptors"), machine, process.pid);
    showPipes(byId("pipes"), machine, processes, nameOf);
  }

  keepRegisters({ pid, registers }) {
    const isSame = this.registers.pid === pid;
    if (isSame && this.registers.now.every((value, index) => value === registers[index])) return;
    this.registers = { before: isSame ? this.registers.now : null, now: registers, pid };
  }

  // The address that is looked at: a number, a register's, or that of a label of what is written.
  wantedAddress(process) {
    const text = byId("address").value || "pc";
    return addressOf(text, process, REGISTERS) ?? this.workshop?.addressOf(text.trim()) ?? null;
  }

  showMemory(process, processes) {
    const { machine, breaks } = this.driver;
    const address = this.wantedAddress(process);
    const positions = { picture: byId("pages"), legend: byId("legend") };
    const page = address === null ? -1 : Number(address / BigInt(PAGE_SIZE));
    showPages(positions, machine, process, processes, page, (number) => this.choosePage(number));
    byId("break").disabled = address === null;
    byId("break").textContent = say(address !== null && breaks.has(Number(address)) ? "unbreak" : "break");
    if (address === null) return replace(byId("walk"), [element("p", { class: "none" }, say("no-address"))]);
    const offset = showWalk({ pane: byId("walk"), bytes: byId("page-bytes") }, machine, process, address);
    return this.scrollBytes(address, offset);
  }

  scrollBytes(address, offset) {
    if (this.bytesAt === address) return;
    this.bytesAt = address;
    const pane = byId("page-bytes");
    pane.scrollTop = Math.floor((offset / PAGE_SIZE) * pane.scrollHeight) - 8;
  }

  showFiles() {
    try {
      showFiles(byId("files"), () => this.driver.machine, (path, bytes) => this.lookAt(path, bytes));
    } catch (halt) {
      this.say(halt.message);
    }
  }

  lookAt(path, bytes) {
    const isText = bytes.every((byte) => (byte >= 0x20 && byte < 0x7f) || byte === 0x0a || byte === 0x09);
    const shown = bytes.subarray(0, MOST_SHOWN);
    byId("file-details").hidden = false;
    byId("file-details").open = true;
    byId("file-name").textContent = say("file-shown", { path, size: counted(bytes.length, "byte") });
    byId("file-bytes").textContent = isText ? new TextDecoder().decode(shown) : bytesText(shown);
  }

  showDisk() {
    try {
      this.disk = new Disk(this.driver.machine.image());
    } catch (halt) {
      return this.say(halt.message);
    }
    this.changed = this.disk.changedFrom(this.image);
    showSuper(byId("super"), this.disk);
    showMapLegend(byId("map-legend"), byId("map-changed"), this.disk, this.changed);
    return this.showBlocks();
  }

  // What is chosen on the disk.
  showBlocks() {
    const { disk, changed } = this;
    this.block = Math.min(this.block, disk.super.size - 1);
    byId("block").max = String(disk.super.size - 1);
    byId("block").value = String(this.block);
    this.cells = showMap(byId("map"), disk, changed, this.block);
    showInodes(byId("inodes"), disk, changed, this.inode, (number) => this.chooseInode(number));
    showBlocks(byId("block-tree"), disk, this.inode, changed, this.block, (block) => this.chooseBlock(block));
    showBlock({ head: byId("block-head"), bytes: byId("block-bytes") }, disk, changed, this.block);
  }

  chooseInode(number) {
    const inode = this.disk.inodes.find((one) => one.number === number);
    this.inode = number;
    this.block = inode.blocks[0]?.block ?? inode.block;
    this.showBlocks();
  }

  chooseBlock(block) {
    this.block = block;
    this.inode = this.disk.owners.get(block)?.inode.number ?? this.inode;
    this.showBlocks();
  }

  // ---- files, images and sessions

  addFile(name, bytes) {
    if (this.workshop && this.driver.record.counts().keys === 0) return this.putFile(name, bytes);
    const refusal = Upload.refusal(this.driver.machine, this.terminal.text, name, bytes.length);
    if (refusal) return this.say(`${name}: ${refusal}`);
    this.upload = new Upload(name, bytes);
    this.upload.from = this.driver.written;
    this.driver.type(this.upload.typed);
    this.run(true);
    return this.say(say("is-typed", { name }));
  }

  // Before anything was typed a file is put on the image, which is booted anew.
  putFile(name, bytes) {
    if (!Upload.isName(name)) throw new Error(say("bad-name"));
    this.boot(put(this.module, this.image, `/${name}`, bytes), this.driver.record.frames);
    this.say(say("is-put", { name }));
  }

  saveImage() {
    download("xv6.img", this.driver.save());
  }

  // What a link says beside the session.
  get seen() {
    const { driver } = this;
    const breaks = [...driver.breaks].map((address) => address.toString(16)).join(".");
    const pid = byId("follow").checked ? "" : this.chosen;
    return { view: this.view === "run" ? "" : this.view, at: driver.isAtEnd ? "" : driver.position, pid, break: breaks };
  }

  // What a link says of an image that has a program of the workshop.
  async written() {
    const booted = this.workshop?.booted;
    return booted?.image === this.image ? { work: await packText(JSON.stringify(booted.work)) } : {};
  }

  async makeLink() {
    const seen = { ...this.seen, ...(await this.written()) };
    const { href } = new URL(await toFragment(this.driver.record, markOf(this.image), seen), location.href);
    byId("link").value = href;
    byId("link").select();
    history.replaceState(null, "", href);
    await navigator.clipboard?.writeText(href).then(
      () => this.say(say("link-copied", { letters: grouped(href.length) })),
      () => this.say(say("copy-link")),
    );
  }

  saveScript() {
    const { record } = this.driver;
    download("session.script", new TextEncoder().encode(record.script()));
    this.say(say("replay-by", { frames: record.frames }));
  }

  /** Replays the session of a link, if it holds one and the image is that of the link, and shows what it names. */
  async follow(fragment) {
    const session = await sessionOf(fragment);
    const words = wordsOf(fragment);
    if (words.work && this.workshop) this.workshop.open(JSON.parse(await unpackText(words.work)));
    if (!session && !words.view && !words.work) throw new Error(say("no-session"));
    if (session) this.replay(session, words);
    if (words.view) this.lookIn(words.view);
    this.showOnly("only" in words);
    if (words.pid) this.chooseByHand(Number(words.pid));
    for (const digits of (words.break ?? "").split(".").filter(Boolean)) this.driver.breaks.add(parseInt(digits, 16));
  }

  replay({ mark, frames, events }, { at }) {
    const image = [this.image, this.firstImage, ...(this.workshop?.images() ?? [])].find((one) => markOf(one) === mark);
    if (!image) throw new Error(say("other-image"));
    this.boot(image, frames, events);
    this.driver.breaks.clear();
    if (/^\d+$/.test(at ?? "")) this.driver.goal = Math.min(Number(at), this.driver.end);
  }

  showOnly(only) {
    document.documentElement.classList.toggle("only", only);
  }

  playScript(text) {
    this.boot(this.image, this.wantedFrames(), eventsOf(text));
  }

  wantedFrames() {
    return Number(byId("frames").value);
  }
}

// ---- what the buttons do

// Says what goes wrong.
const guarded = (page, act) => async (...words) => {
  try {
    await act(...words);
  } catch (error) {
    page.say(error.message);
  }
};

const bytesOf = async (file) => new Uint8Array(await file.arrayBuffer());

// A button that asks for a file.
function asksForFile(page, name, input, act) {
  byId(name).addEventListener("click", () => byId(input).click());
  byId(input).addEventListener(
    "change",
    guarded(page, async () => {
      const [file] = byId(input).files;
      byId(input).value = "";
      if (file) await act(file.name, await bytesOf(file));
    }),
  );
}

function wireControls(page) {
  const onClick = (id, act) => byId(id).addEventListener("click", guarded(page, act));
  onClick("run", () => page.run(!page.driver.isRunning && !page.driver.isBound));
  onClick("step", () => page.step());
  onClick("tick", () => page.driver.tickByHand());
  onClick("copy", () => copyText(page));
  onClick("boot", () => page.boot(page.image, page.wantedFrames()));
  onClick("first-image", () => page.boot(page.firstImage, page.wantedFrames()));
  onClick("save-image", () => page.saveImage());
  onClick("make-link", () => page.makeLink());
  onClick("save-script", () => page.saveScript());
  onClick("search", () => page.search());
  onClick("close-search", () => page.endSearch());
  onClick("note-all", () => page.noteFirst(() => {}));
  for (const id of ["rate", "clock", "watch"]) byId(id).addEventListener("change", () => page.obeyControls());
}

function wireTime(page) {
  const on = (name, act) => {
    for (const one of document.querySelectorAll(`[data-${name}]`)) one.addEventListener("click", guarded(page, () => act(one.dataset[name])));
  };
  on("back", (kind) => page.back(kind));
  on("forward", (kind) => page.forwardTo(kind));
  byId("to-end").addEventListener("click", guarded(page, () => page.seek(page.driver.end)));
  byId("position").addEventListener("input", guarded(page, () => page.seek(Number(byId("position").value))));
  const drag = guarded(page, (event) => page.seek(positionAt(byId("marks"), event.offsetX, page.driver.end)));
  byId("marks").addEventListener("pointerdown", (event) => {
    byId("marks").setPointerCapture(event.pointerId);
    drag(event);
  });
  byId("marks").addEventListener("pointermove", (event) => event.buttons && drag(event));
  byId("branches").addEventListener("change", guarded(page, () => {
    page.driver.enter(Number(byId("branches").value));
    page.refresh();
  }));
}

function wireViews(page) {
  for (const view of VIEWS) byId(`tab-${view}`).addEventListener("click", () => page.lookIn(view));
  byId("pids").addEventListener("change", () => page.chooseByHand(Number(byId("pids").value)));
  byId("follow").addEventListener("change", () => page.refresh());
  byId("address").addEventListener("input", () => page.refresh());
  byId("break").addEventListener("click", () => {
    const process = page.driver.machine.process(page.chosen);
    page.toggleBreak(Number(page.wantedAddress(process)));
  });
  byId("block").addEventListener("input", () => page.chooseBlock(Math.max(0, Number(byId("block").value))));
  byId("map").addEventListener("click", (event) => {
    const block = blockAt(event, page.cells, page.disk);
    if (block !== null) page.chooseBlock(block);
  });
  addEventListener("resize", () => page.refresh());
}

function wireFiles(page) {
  asksForFile(page, "add-file", "file-input", (name, bytes) => page.addFile(name, bytes));
  asksForFile(page, "play-script", "script-input", (name, bytes) => page.playScript(new TextDecoder().decode(bytes)));
  asksForFile(page, "own-image", "image-input", (name, bytes) => page.boot(bytes, page.wantedFrames()));
}

function wireLinks(page) {
  const follow = guarded(page, (fragment) => page.follow(fragment));
  if (location.hash) follow(location.hash);
  byId("link").addEventListener("keydown", (event) => {
    if (event.key === "Enter") follow(byId("link").value.replace(/^[^#]*/, ""));
  });
  addEventListener("hashchange", () => follow(location.hash));
}

function lecture() {
  const isLarge = document.documentElement.classList.toggle("lecture");
  byId("lecture").setAttribute("aria-pressed", isLarge);
}

function showTheme() {
  document.documentElement.dataset.theme = theme || (SYSTEM_DARK.matches ? "dark" : "light");
}

function nextTheme() {
  theme = THEMES[(THEMES.indexOf(theme) + 1) % THEMES.length];
  byId("theme").textContent = say(`theme${theme && `-${theme}`}`);
  showTheme();
}

function wireLooks(page) {
  const redraw = (act) => () => {
    act();
    page.refresh();
  };
  byId("lecture").addEventListener("click", redraw(lecture));
  byId("theme").addEventListener("click", redraw(nextTheme));
  SYSTEM_DARK.addEventListener("change", redraw(showTheme));
  byId("help").addEventListener("click", () => byId("keys-help").showModal());
  byId("close-help").addEventListener("click", () => byId("keys-help").close());
  document.querySelectorAll("[role=toolbar], [role=tablist]").forEach(group);
  for (const id of ["processes", "files", "code", "pages", "inodes", "block-tree", "outcomes", "rows", "results", "faults"]) group(byId(id));
}

const isText = (target) => target.matches?.("textarea, input[type=text], input[type=number]");

// What a key does in the page; nothing where it is the terminal's.
function keyAct(page, event) {
  const plain = {
    F1: () => byId("keys-help").showModal(),
    F2: () => page.lookIn("run"),
    F3: () => page.lookIn("inside"),
    F4: () => page.lookIn("disk"),
    F7: () => page.back(event.shiftKey ? "call" : "step"),
    F8: () => page.run(!page.driver.isRunning && !page.driver.isBound),
    F9: () => (event.shiftKey ? page.driver.tickByHand() : page.step()),
    F10: () => page.forwardTo(event.shiftKey ? "switch" : "call"),
  };
  if (event.altKey) return { s: () => page.search(), l: redrawn(page, lecture), w: () => page.lookIn("write") }[event.key.toLowerCase()];
  if (event.ctrlKey || event.metaKey) return undefined;
  if (event.key === "?" && !isText(event.target)) return plain.F1;
  return plain[event.key];
}

const redrawn = (page, act) => () => {
  act();
  page.refresh();
};

function wireKeys(page) {
  document.addEventListener("keydown", (event) => {
    const act = keyAct(page, event);
    if (!act) return;
    event.preventDefault();
    act();
  });
}

async function copyText(page) {
  const selected = document.getSelection().toString();
  try {
    await navigator.clipboard.writeText(selected || page.terminal.text);
    page.say(say(selected ? "copied-part" : "copied-all"));
  } catch {
    page.terminal.select();
    page.say(say("copy-by-key"));
  }
}

// ---- the beginning

async function unpack(id) {
  const packed = Uint8Array.from(atob(byId(id).textContent), (letter) => letter.charCodeAt(0));
  const stream = new Blob([packed]).stream().pipeThrough(new DecompressionStream("gzip"));
  return new Uint8Array(await new Response(stream).arrayBuffer());
}

// The view in which programs are written, where the module can make them.
async function openWorkshop(page) {
  const packed = byId("packed-exercises").textContent && (await unpack("packed-exercises"));
  const exercises = packed ? new Exercises(page.module, JSON.parse(new TextDecoder().decode(packed))) : null;
  page.workshop = new Workshop(page.module, page, exercises);
  byId("tab-write").hidden = false;
  wireWorkshop(page.workshop, (act) => guarded(page, act));
}

async function start() {
  showTheme();
  const [code, image] = await Promise.all(["packed-module", "packed-image"].map(unpack));
  const page = new Page(await loadModule(code), image);
  page.lookIn("run");
  page.boot(image, FRAMES);
  if (canWrite(page.module)) await openWorkshop(page);
  for (const wire of [wireControls, wireTime, wireViews, wireFiles, wireLinks, wireLooks, wireKeys]) wire(page);
  const draw = (time) => {
    page.frame(time);
    requestAnimationFrame(draw);
  };
  requestAnimationFrame(draw);
  page.terminal.focus();
}

start().catch((error) => {
  byId("status").textContent = say("page-fails", { why: error.message });
});
