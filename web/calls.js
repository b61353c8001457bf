// The calls by name: their arguments as words, how each is made, what it answers in words.

// An argument is a `number`, a `block` (two words: handle, pointer or name, and its number), or `bytes` of a second buffer; `limits` are
// bytes that may be left out. What a call hands back is an answer (number and values), a view, a walker's place, a second buffer.
const told = (answer) => [answer.number, ...answer.values];
const done = (answer) => [answer.number, 0];

const CALLS = {
  initialize: { args: ["length:number", "masters:number"], group: "Zone", make: (z, length, masters) => ({ answer: done(z.initialize(length, masters)) }) },
  enlarge: { args: ["k:number"], group: "Zone", make: (z, k) => ({ answer: done(z.enlarge(k)) }) },
  shrink: { args: ["k:number"], group: "Zone", value: "stripped", make: (z, k) => ({ answer: told(z.shrink(k)) }) },
  compact: { args: [], group: "Zone", value: "largest sum", make: (z) => ({ answer: told(z.compact()) }) },
  allocate_relocatable: { args: ["c:number"], group: "Blocks", value: "handle", make: (z, c) => ({ answer: told(z.allocate_relocatable(c)) }) },
  allocate_fixed: { args: ["c:number"], group: "Blocks", value: "pointer", make: (z, c) => ({ answer: told(z.allocate_fixed(c)) }) },
  resize: { args: ["handle:number", "c:number"], group: "Blocks", make: (z, handle, c) => ({ answer: done(z.resize(handle, c)) }) },
  free_handle: { args: ["handle:number"], group: "Blocks", make: (z, handle) => ({ answer: done(z.free_handle(handle)) }) },
  free_pointer: { args: ["pointer:number"], group: "Blocks", make: (z, pointer) => ({ answer: done(z.free_pointer(pointer)) }) },
  write: { args: ["block:block", "offset:number", "count:number", "src:bytes"], group: "Bytes",
    make: (z, block, offset, count, src) => handed(z.write(block.by, block.block, offset, count, src)) },
  read: { args: ["block:block", "offset:number", "count:number", "out:bytes"], group: "Bytes",
    make: (z, block, offset, count, out) => handed(z.read(block.by, block.block, offset, count, out)) },
  view: { args: ["block:block", "offset:number", "count:number"], group: "Bytes", make: (z, block, offset, count) => {
    const part = z.view(block.by, block.block, offset, count);
    return { view: [part.offset, part.length] };
  } },
  size: { args: ["block:block"], group: "Bytes", value: "data bytes", make: (z, block) => ({ answer: told(z.size(block.by, block.block)) }) },
  create_page: { args: ["name:number", "c:number"], group: "Pages", value: "data at", make: (z, name, c) => ({ answer: told(z.create_page(name, c)) }) },
  use_page: { args: ["name:number"], group: "Pages", value: "data at", make: (z, name) => ({ answer: told(z.use_page(name)) }) },
  set_dirty: { args: ["name:number"], group: "Pages", make: (z, name) => ({ answer: done(z.set_dirty(name)) }) },
  clear_dirty: { args: ["name:number"], group: "Pages", make: (z, name) => ({ answer: done(z.clear_dirty(name)) }) },
  set_lock: { args: ["name:number"], group: "Pages", make: (z, name) => ({ answer: done(z.set_lock(name)) }) },
  clear_lock: { args: ["name:number"], group: "Pages", make: (z, name) => ({ answer: done(z.clear_lock(name)) }) },
  drop_page: { args: ["name:number"], group: "Pages", make: (z, name) => ({ answer: done(z.drop_page(name)) }) },
  sum: { args: [], group: "Tell", make: (z) => ({ answer: told(z.sum()) }) },
  check: { args: [], group: "Tell", make: (z) => {
    const { yes, live } = z.check();
    return { answer: [0, yes, live] };
  } },
  length: { args: [], group: "Tell", value: "L", make: (z) => ({ answer: told(z.length()) }) },
  roster: { args: ["out:bytes"], group: "Tell", value: "live handles", make: (z, out) => {
    const answer = z.roster(out);
    return { answer: told(answer), second: answer.second };
  } },
  census: { args: ["limits:limits"], group: "Tell", make: (z, limits) => ({ answer: told(z.census(limits)) }) },
  walker_start: { args: [], group: "Tell", make: (z) => ({ walker: z.walker_start() }) },
  walker_step: { args: ["walker:number"], group: "Tell", make: (z, walker) => {
    const step = z.walker_step(walker);
    return { answer: told(step), walker: step.walker };
  } },
};

function handed(answer) {
  return { answer: [answer.number], second: answer.second };
}

// -- words to arguments, and back

function callFrom(words) {
  const name = words[0];
  if (!Object.hasOwn(CALLS, name)) throw new Fault(`there is no call ${quoted(name)}`);
  const args = [];
  let at = 1;
  for (const [what, kind] of CALLS[name].args.map((arg) => arg.split(":"))) {
    if (kind === "limits" && at === words.length) { args.push(new Uint8Array(0)); continue; }
    if (at >= words.length) throw new Fault(`${name} wants ${what}, and the line ends`);
    if (kind === "block") { args.push(blockFrom(words[at], words[at + 1])); at += 2; continue; }
    args.push(kind === "number" ? decimal(words[at], what) : unhex(words[at], what));
    at++;
  }
  if (at < words.length) throw new Fault(`${name}: ${quoted(words[at])} is one word too many`);
  return { kind: "call", name, args };
}

function blockFrom(by, block) {
  if (!Object.hasOwn(BY, by)) throw new Fault(`a block is named by handle, pointer or name, and not by ${quoted(by)}`);
  if (block === undefined) throw new Fault(`after ${by} a number is missing`);
  return { by, block: decimal(block, by) };
}

/** A step as a line of a list of calls. */
function wordsOf(step) {
  if (step.kind === "set") return `set ${step.at} ${hex(step.bytes)}`;
  const words = [step.name];
  step.args.forEach((arg, i) => {
    const kind = CALLS[step.name].args[i].split(":")[1];
    if (kind === "block") words.push(arg.by, arg.block);
    else if (kind === "number") words.push(arg);
    else if (kind !== "limits" || arg.length) words.push(hex(arg));
  });
  return words.join(" ");
}

/** The same, short: of long bytes how many there are, and no second buffer that is merely long enough. */
function shownWords(step) {
  if (step.kind === "set") return `set ${step.at} ${shownBytes(step.bytes)}`;
  const words = [step.name];
  step.args.forEach((arg, i) => {
    const [what, kind] = CALLS[step.name].args[i].split(":");
    if (kind === "block") words.push(arg.by, arg.block);
    else if (kind === "number") words.push(arg);
    else if (what === "out") { if (step.name === "read" ? arg.length !== step.args[2] : true) words.push(`(out ${arg.length})`); }
    else if (arg.length) words.push(shownBytes(arg));
  });
  return words.join(" ");
}

function shownBytes(bytes) {
  return bytes.length > 8 ? `(${counted(bytes.length, "byte")})` : hex(bytes);
}

function make(library, step) {
  return CALLS[step.name].make(library, ...step.args);
}

// -- answers in words

const SHORT_CAUSES = {
  1: "the buffer holds no well-formed zone", 2: "length or masters against the rules", 3: "c is too large", 4: "no master is free, and none can be added",
  5: "no space: no bay’s sum reaches the need", 6: "no block has this handle", 7: "no fixed block has this pointer", 8: "past the block’s end",
  9: "k no multiple of 4, or past the buffer", 10: "the second buffer is too short", 11: "a page has this name", 12: "a dirty page would have to go",
  13: "no page has this name", 14: "limits of another length, or against their rules",
};

/** What was answered, short: the number with its cause, and the values. */
function answerWords(step, told) {
  if (step.kind === "set") return "bytes put there by no call";
  const words = [];
  if (told.answer && told.answer[0] !== 0) words.push(`${told.answer[0]}: ${SHORT_CAUSES[told.answer[0]]}${told.answer[0] === 12 ? `, page ${told.answer[1]}` : ""}`);
  else words.push(doneWords(step, told));
  return words.join("");
}

function doneWords(step, told) {
  const values = told.answer ? told.answer.slice(1) : [];
  switch (step.name) {
    case "view": return told.view[0] ? `${told.view[1]} bytes at ${told.view[0]}` : "0 and 0: refused";
    case "walker_start": return told.walker ? `walker at ${told.walker}` : "0: no zone";
    case "walker_step": return `0 done, ${values[2] ? `${KIND_NAMES[values[0]]} at ${values[1]}, size ${values[2]}; walker at` : "no block starts there; walker stays at"} ${told.walker}`;
    case "sum": return `0 done, total ${values[0]}, largest sum ${values[1]}`;
    case "check": return values[0] ? `yes, ${counted(values[1], "live handle")}` : "no: not well-formed";
    case "census": return `0 done, ${counted(values.reduce((a, b) => a + b, 0), "free block")}: ${values.join(" ")}`;
    case "read": return `0 done, ${hex(told.second.subarray(0, step.args[2]))}`;
    default: return CALLS[step.name].value ? `0 done, ${CALLS[step.name].value} ${values[0]}` : "0 done";
  }
}

/** The lines that a file of vectors has for what was told. */
function toldLines(step, told, zoneBefore, zoneAfter) {
  const lines = [];
  if (told.answer) lines.push(`answer ${told.answer.join(" ")}`);
  if (told.view) lines.push(`view ${told.view.join(" ")}`);
  if (told.walker !== undefined) lines.push(`walker ${told.walker}`);
  if (told.second) lines.push(`second ${alike(told.second, step.args[step.args.length - 1]) ? "same" : hex(told.second)}`);
  if (zoneAfter) lines.push(`zone ${alike(zoneBefore, zoneAfter) ? "same" : hex(zoneAfter)}`);
  return lines;
}
