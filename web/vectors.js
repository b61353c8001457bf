// Files of vectors (vectors/FORMAT.md): lists of calls, with what is expected where the file has it; and the list at hand as such a file.

const MOST_STEPS = 200000;
const MOST_FILE = 64 * 1024 * 1024;
const FIRST_LINE = "nafelode-vectors 3";

/** The lists of a file: each with its name, the buffer before the first step, and its steps. */
function readVectors(text) {
  const lines = text.split(/\r?\n/);
  if (lines[0].trim() !== FIRST_LINE) throw new Fault(`the first line is ${quoted(lines[0])}, and of a file of vectors it is ‘${FIRST_LINE}’`);
  const reader = new VectorReader();
  for (let i = 1; i < lines.length; i++) {
    try {
      reader.line(lines[i].trim(), i + 1);
    } catch (fault) {
      if (fault instanceof Fault) throw new Fault(`line ${i + 1}: ${fault.message}`);
      throw fault;
    }
  }
  if (!reader.lists.length) throw new Fault("the file has no list");
  const bare = reader.lists.find((list) => !list.origin);
  if (bare) throw new Fault(`list ${quoted(bare.name)} has no buffer`);
  return reader.lists;
}

class VectorReader {
  constructor() {
    this.lists = [];
    this.list = null;
    this.step = null; // the call whose answers follow
    this.notes = [];
    this.count = 0;
  }

  line(line, place) {
    if (line === "") { this.notes = this.step ? [] : this.notes; return; }
    if (line.startsWith("#")) { this.notes.push(line.slice(1).trim()); return; }
    const words = line.split(/ +/);
    switch (words[0]) {
      case "list": return this.start(words);
      case "buffer": return this.buffer(words);
      case "set": return this.add({ kind: "set", at: decimal(words[1] ?? "", "the offset"), bytes: unhex(words[2] ?? "", "set"), expected: null }, place);
      case "call": return this.add({ ...callFrom(words.slice(1)), expected: {} }, place);
      case "answer": this.expect().answer = words.slice(1).map((word) => decimal(word, "an answer")); return;
      case "view": this.expect().view = words.slice(1).map((word) => decimal(word, "a view")); return;
      case "walker": this.expect().walker = decimal(words[1] ?? "", "the walker"); return;
      case "second": this.expect().second = words[1] === "same" ? "same" : unhex(words[1] ?? "", "second"); return;
      case "zone": this.expect().zone = words[1] === "same" ? "same" : unhex(words[1] ?? "", "zone"); return;
      default: throw new Fault(`${quoted(words[0])} starts no line of vectors`);
    }
  }

  start(words) {
    this.list = { name: words[1] ?? "list", steps: [], origin: null, note: this.notes.join(" ") };
    this.lists.push(this.list);
    this.notes = [];
    this.step = null;
  }

  buffer(words) {
    if (!this.list) this.start(["list", "list"]);
    if (this.list.origin) throw new Fault("a second buffer in one list");
    const length = decimal(words[1] ?? "", "the buffer’s length", MOST_BUFFER);
    this.list.origin = new Uint8Array(length).fill(decimal(words[2] ?? "0", "the buffer’s byte", 255));
  }

  add(step, place) {
    if (!this.list || !this.list.origin) throw new Fault("a list begins with its buffer");
    if (step.kind === "set" && step.at + step.bytes.length > this.list.origin.length) throw new Fault("set reaches past the buffer");
    if (++this.count > MOST_STEPS) throw new Fault(`more than ${grouped(MOST_STEPS)} steps`);
    this.list.steps.push({ ...step, place, note: this.notes.join(" "), own: false });
    this.notes = [];
    this.step = step.kind === "call" ? this.list.steps[this.list.steps.length - 1] : null;
  }

  expect() {
    if (!this.step) throw new Fault("an answer without a call");
    return this.step.expected;
  }
}

/** What differs between what was told and what is expected; an empty list where nothing is expected, or nothing differs. */
function differences(step, told, zoneBefore, zoneAfter) {
  const expected = step.expected;
  if (!expected) return [];
  const found = [];
  const compare = (what, has, wants) => { if (has !== wants) found.push(`${what} ${has}, expected ${wants}`); };
  if (expected.answer) compare("answer", (told.answer ?? []).join(" "), expected.answer.join(" "));
  if (expected.view) compare("view", (told.view ?? []).join(" "), expected.view.join(" "));
  if (expected.walker !== undefined) compare("walker", String(told.walker), String(expected.walker));
  if (expected.second) {
    const wants = expected.second === "same" ? step.args[step.args.length - 1] : expected.second;
    if (!told.second || !alike(told.second, wants)) found.push(`second buffer ${told.second ? hex(told.second) : "none"}, expected ${hex(wants)}`);
  }
  if (expected.zone) {
    const wants = expected.zone === "same" ? zoneBefore : expected.zone;
    if (!alike(zoneAfter, wants)) found.push(`the buffer’s bytes: ${firstDifference(zoneAfter, wants)}`);
  }
  return found;
}

function firstDifference(has, wants) {
  if (has.length !== wants.length) return `${grouped(has.length)} of them, expected ${grouped(wants.length)}`;
  const at = has.findIndex((byte, i) => byte !== wants[i]);
  return `at ${at} ${PAIRS[has[at]]}, expected ${PAIRS[wants[at]]}`;
}

function isCompared(step) {
  return Boolean(step.expected && (step.expected.answer || step.expected.view || step.expected.walker !== undefined || step.expected.zone));
}

// -- writing

const SET_BYTES = 512; // a line's worth

/** The steps that were done as a .calls file. */
function callsFile(name, origin, steps) {
  const lines = [FIRST_LINE, `# Calls made on the page of Nafelode ${DATA.version}.`, "", `list ${name.replace(/[^A-Za-z0-9_.*-]/g, "_") || "calls"}`, ...originLines(origin)];
  for (const step of steps) {
    if (step.note) lines.push(`# ${step.note.replace(/[^ -~]/g, "?")}`);
    lines.push(step.kind === "set" ? wordsOf(step) : `call ${wordsOf(step)}`);
  }
  return lines.join("\n") + "\n";
}

function originLines(origin) {
  const byte = origin.length ? origin[0] : 0;
  const lines = [`buffer ${origin.length} ${origin.every((other) => other === byte) ? byte : 0}`];
  if (lines[0].endsWith(` ${byte}`) && origin.every((other) => other === byte)) return lines;
  for (let at = 0; at < origin.length; at += SET_BYTES) {
    const part = origin.subarray(at, at + SET_BYTES);
    if (part.some((other) => other !== 0)) lines.push(`set ${at} ${hex(part)}`);
  }
  return lines;
}
