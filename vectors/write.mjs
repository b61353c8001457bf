// Makes the calls of a .calls file (standard input) with nafelode.wasm and writes them with each answer and the zone's bytes (standard
// output), as FORMAT.md says: what write.c does in C.
// usage: node vectors/write.mjs FOLDER [--stack BYTES] < FILE.calls     FOLDER: with nafelode.wasm and nafelode.h, as ./c-library --target wasm32 makes it;
//        --stack: the most bytes of stack that a call has used, to standard error; BYTES: those at memory's start that are stack
import { readFileSync } from 'node:fs';

const BUFFER = 2097152, GUARD = 64, GUARD_BYTE = 0xA5, RUN = 32, STRATA = 19;
const BY = { handle: 0, pointer: 1, name: 2 };
// numbers that a call takes, and values that it writes through pointers
const PLAIN = {
  initialize: [2, 0], allocate_relocatable: [1, 1], allocate_fixed: [1, 1], free_handle: [1, 0], free_pointer: [1, 0], resize: [2, 0],
  compact: [0, 1], enlarge: [1, 0], shrink: [1, 1], create_page: [2, 1], use_page: [1, 1], set_dirty: [1, 0], clear_dirty: [1, 0],
  set_lock: [1, 0], clear_lock: [1, 0], drop_page: [1, 0], size: [2, 1], length: [0, 1], sum: [0, 2],
};

const [folder, option, bytes] = process.argv.slice(2), depth = option === '--stack' ? Number(bytes) : 0;
const library = new WebAssembly.Instance(new WebAssembly.Module(readFileSync(`${folder}/nafelode.wasm`))).exports;
const version = readFileSync(`${folder}/nafelode.h`, 'ascii').match(/^#define NAFELODE_VERSION "(.*)"$/m)[1];

// memory: values, zone and second buffer, each with bytes before and behind it that no call may change
const rooms = { values: 4 * STRATA, zone: BUFFER, second: BUFFER }, start = {};
let end = library.__heap_base.value; // behind the stack and the module's constants: from here on memory is free
for (const room in rooms) {
  start[room] = end + GUARD;
  end = start[room] + rooms[room] + GUARD;
}
library.memory.grow(Math.ceil((end - library.memory.buffer.byteLength) / 65536));
const memory = new Uint8Array(library.memory.buffer), view = new DataView(library.memory.buffer);
const word = (i) => view.getUint32(start.values + 4 * i, true);
const lent = { values: 4 * STRATA, zone: undefined, second: 0 };
const guards = () => Object.keys(rooms).flatMap((room) => [start[room] - GUARD, start[room] + (lent[room] ?? 0)]);

let lineNumber = 0, stack = 0, words;
const out = [];
function fail(what) {
  console.error(`write.mjs: line ${lineNumber}: ${what}`);
  process.exit(1);
}
const number = (i) => (/^\d+$/.test(words[i]) && Number(words[i]) < 2 ** 32 ? Number(words[i]) : fail('a decimal number of 32 bits is wanted'));
const by = () => BY[words[2]] ?? fail("'handle', 'pointer' or 'name' is wanted");

function unhex(text) {
  if (text === '-') return new Uint8Array(0);
  const plain = text.replace(/([0-9A-F]{2})\*(\d+)\./g, (_, byte, times) => byte.repeat(Number(times)));
  if (!/^([0-9A-F]{2})+$/.test(plain)) fail('bytes are wanted');
  return Uint8Array.from(Buffer.from(plain, 'hex'));
}

function hex(bytes) {
  let text = '';
  for (let k = 0, run; k < bytes.length; k += run) {
    for (run = 1; bytes[k + run] === bytes[k]; run++);
    if (run < RUN) run = 1; // short runs byte by byte
    const byte = bytes[k].toString(16).toUpperCase().padStart(2, '0');
    text += run === 1 ? byte : `${byte}*${run}.`;
  }
  return text || '-';
}

const bytesOf = (room) => memory.subarray(start[room], start[room] + lent[room]);
const lend = (room, bytes) => {
  if (bytes.length > BUFFER) fail('more bytes than BUFFER');
  lent[room] = bytes.length;
  memory.set(bytes, start[room]);
};
const tell = (what, before, room) => out.push(`${what} ${Buffer.compare(before, bytesOf(room)) ? hex(bytesOf(room)) : 'same'}`);

function made(name, ...given) {
  memory.fill(GUARD_BYTE, start.values, start.values + rooms.values); // what a call does not write is seen
  for (const guard of guards()) memory.fill(GUARD_BYTE, guard, guard + GUARD);
  memory.fill(GUARD_BYTE, 0, depth);
  const told = library[`nafelode_${name}`](start.zone, BigInt(lent.zone), ...given) >>> 0;
  for (const guard of guards()) if (memory.subarray(guard, guard + GUARD).some((byte) => byte !== GUARD_BYTE)) fail('a byte outside of what was lent has changed');
  const low = memory.subarray(0, depth).findIndex((byte) => byte !== GUARD_BYTE);
  if (low >= 0) stack = Math.max(stack, depth - low);
  return told;
}
const value = (i) => start.values + 4 * i;
const second = () => [start.second, BigInt(lent.second)];
const counts = (n) => Array.from({ length: n }, (_, i) => word(i));

const calls = {
  check: () => ['answer 0', made('check', value(0)), word(0)],
  view: () => ['view', made('view', by(), number(3), number(4), number(5), value(0)), word(0)],
  walker_start: () => ['walker', made('walker_start')],
  walker_step() {
    lend('second', new Uint8Array(4)); // the walker, a number of the caller's
    view.setUint32(start.second, number(2), true);
    out.push(['answer', made('walker_step', start.second, value(0), value(1), value(2)), ...counts(3)].join(' '));
    return ['walker', view.getUint32(start.second, true)];
  },
  census() {
    const limits = words.length > 2 ? unhex(words[2]) : new Uint8Array(0);
    lend('second', limits);
    const line = ['answer', made('census', ...second(), value(0)), ...counts(STRATA)];
    if (Buffer.compare(limits, bytesOf('second'))) fail('a census has changed its limits');
    return line;
  },
};
for (const [name, [takes, gives]] of Object.entries(PLAIN)) {
  calls[name] = () => {
    const given = words.slice(2).map((_, i) => (name === 'size' && i === 0 ? by() : number(i + 2)));
    if (given.length !== takes) fail('another number of arguments is wanted');
    const told = made(name, ...given, ...Array.from({ length: gives }, (_, i) => value(i)));
    return ['answer', told, ...(gives ? counts(gives) : [0])];
  };
}
for (const name of ['read', 'write', 'roster']) {
  calls[name] = () => {
    const given = unhex(words.at(-1));
    lend('second', given);
    if (name === 'roster') out.push(`answer ${made(name, ...second(), value(0))} ${word(0)}`);
    else out.push(`answer ${made(name, by(), number(3), number(4), number(5), ...second())}`);
    return tell('second', given, 'second');
  };
}

function doLine() {
  if (words[0] === 'buffer') lend('zone', new Uint8Array(number(1)).fill(number(2)));
  else if (words[0] === 'set') {
    const bytes = unhex(words[2]);
    if (!(number(1) + bytes.length <= lent.zone)) fail('outside the buffer');
    memory.set(bytes, start.zone + number(1));
  } else if (words[0] === 'call' && lent.zone !== undefined) {
    if (!Object.hasOwn(calls, words[1])) fail('no call of this name');
    const before = bytesOf('zone').slice(), told = calls[words[1]]();
    if (Array.isArray(told)) out.push(told.join(' '));
    tell('zone', before, 'zone');
  } else if (words[0] !== 'list' && !words[0].startsWith('#')) fail('not understood');
}

for (const line of readFileSync(0, 'ascii').split('\n').slice(0, -1)) {
  lineNumber++;
  if (lineNumber === 1 && line !== 'nafelode-vectors 3') fail("'nafelode-vectors 3' is wanted");
  out.push(line);
  if (lineNumber === 1) out.push(`# written by Nafelode ${version}`);
  words = line.split(' ').filter(Boolean);
  if (lineNumber > 1 && words.length) doLine();
}
if (lineNumber === 0) fail('nothing to read');
if (depth) console.error(stack);
process.stdout.write(out.join('\n') + '\n');
