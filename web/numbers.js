// Numbers and bytes as text: decimal arguments, hexadecimal bytes with their runs, numbers high byte first.

const MOST_ARGUMENT = 4294967295;
const MOST_BUFFER = 2 * 1024 * 1024;
const LONG_RUN = 32; // so many equal bytes are written as a run

/** What is wrong with something that was typed or read, as a sentence for the reader. */
class Fault extends Error {}

function decimal(word, what, most = MOST_ARGUMENT) {
  const text = String(word).trim().replace(/,/g, "");
  if (!/^[0-9]+$/.test(text)) throw new Fault(`${what} is ${quoted(word)}, and no whole number`);
  const value = Number(text);
  if (value > most) throw new Fault(`${what} is ${quoted(word)}, and ${grouped(most)} is the largest`);
  return value;
}

/** A word of a stranger's file, cut to a length that can be shown. */
function quoted(word) {
  const text = String(word);
  return text === "" ? "empty" : `‘${text.length > 40 ? text.slice(0, 40) + "…" : text}’`;
}

function grouped(number) {
  return number < 1000 ? String(number) : String(number).replace(/\B(?=(?:\d{3})+$)/g, ",");
}

/** The largest of what is measured, 0 of nothing; any number of them. */
function largestOf(items, measure) {
  return items.reduce((most, item) => Math.max(most, measure(item)), 0);
}

function counted(number, one, many = one + "s") {
  return `${grouped(number)} ${number === 1 ? one : many}`;
}

/** The bytes of a word: pairs of hexadecimal digits, `-` for none, `00*40.` for a run. */
function unhex(word, what = "bytes", most = MOST_BUFFER) {
  if (word === "-" || word === "") return new Uint8Array(0);
  const bytes = [];
  let run = 0;
  const parts = /([0-9A-Fa-f]{2})(?:\*([0-9]{1,8})\.)?/y;
  const pieces = [];
  let total = 0;
  for (let at = 0; at < word.length; at = parts.lastIndex) {
    parts.lastIndex = at;
    const found = parts.exec(word);
    if (!found) throw new Fault(`${what}: ${quoted(word.slice(at))} is no pair of hexadecimal digits`);
    run = found[2] === undefined ? 1 : Number(found[2]);
    total += run;
    if (total > most) throw new Fault(`${what}: more than ${grouped(most)} bytes`);
    if (run === 1) {
      bytes.push(parseInt(found[1], 16));
    } else {
      pieces.push(Uint8Array.from(bytes), new Uint8Array(run).fill(parseInt(found[1], 16)));
      bytes.length = 0;
    }
  }
  pieces.push(Uint8Array.from(bytes));
  return joined(pieces, total);
}

function joined(pieces, total = pieces.reduce((sum, piece) => sum + piece.length, 0)) {
  const all = new Uint8Array(total);
  let at = 0;
  for (const piece of pieces) {
    all.set(piece, at);
    at += piece.length;
  }
  return all;
}

const PAIRS = Array.from({ length: 256 }, (_, byte) => byte.toString(16).toUpperCase().padStart(2, "0"));

/** Bytes as one word, as the vectors have it: a run of 32 or more equal bytes is shortened. */
function hex(bytes) {
  if (bytes.length === 0) return "-";
  const words = [];
  for (let at = 0; at < bytes.length; ) {
    let end = at + 1;
    while (end < bytes.length && bytes[end] === bytes[at]) end++;
    const pair = PAIRS[bytes[at]];
    words.push(end - at >= LONG_RUN ? `${pair}*${end - at}.` : pair.repeat(end - at));
    at = end;
  }
  return words.join("");
}

/** A number of so many bytes, high byte first. */
function big(bytes, at, width) {
  let value = 0;
  for (let i = 0; i < width; i++) value = value * 256 + bytes[at + i];
  return value;
}

function bigBytes(numbers) {
  const bytes = new Uint8Array(4 * numbers.length);
  numbers.forEach((number, i) => new DataView(bytes.buffer).setUint32(4 * i, number));
  return bytes;
}

function up4(k) {
  return Math.ceil(k / 4) * 4;
}

function alike(a, b) {
  if (a === b) return true;
  if (a.length !== b.length) return false;
  for (let i = 0; i < a.length; i++) if (a[i] !== b[i]) return false;
  return true;
}
