// What the library tells of the buffer, put in order for display: blocks, masters, bays. Nothing here decides anything.

const KIND_NAMES = ["free block", "fixed block", "relocatable block", "page"];
const KINDS = ["free", "fixed", "relocatable", "page"];
const FREE = N.FREE_CODE, FIXED = N.FIXED_CODE, RELOCATABLE = N.RELOCATABLE_CODE, PAGE = N.PAGE_CODE;
const HEADERS = [N.FREE_HEADER, N.FIXED_HEADER, N.RELOCATABLE_HEADER, N.PAGE_HEADER];
const WORD = 2; // bytes
const WALK_MILLISECONDS = 8; // so long the walker is asked before the zone is shown; the rest follows in the background

/** A block, from a walker's answer or a header, with what its own bytes say: handle, pointer or name. */
function blockAt(bytes, type, offset, size) {
  const header = HEADERS[type];
  const block = { type, offset, size, end: offset + size, data: offset + header, dataSize: size - header, key: "", name: "" };
  if (type === FIXED) { block.pointer = block.data; block.key = `p${block.pointer}`; block.name = `pointer ${block.pointer}`; }
  if (type === RELOCATABLE) { block.handle = big(bytes, offset + N.TAG_AT, 2); block.key = `h${block.handle}`; block.name = `handle ${block.handle}`; }
  if (type === PAGE) {
    const status = big(bytes, offset + N.STATUS_AT, 2);
    block.page = big(bytes, offset + N.TAG_AT, 4);
    block.key = `n${block.page}`;
    block.name = `name ${block.page}`;
    block.dirty = Boolean(status & N.DIRTY_BIT);
    block.lock = Boolean(status & N.LOCK_BIT);
    block.age = (bytes[N.CLOCK_AT] - (status % N.STAMP_RANGE) + N.STAMP_RANGE) % N.STAMP_RANGE;
    block.flags = [block.dirty ? "dirty" : "", block.lock ? "lock" : ""].filter(Boolean).join(" ");
  }
  return block;
}

/** A block's type and size as its header has them. */
function headerAt(bytes, at) {
  const type = Math.floor(bytes[at] / N.TYPE_BYTE_UNIT);
  return { type, size: WORD * (type === FREE ? big(bytes, at, 4) : big(bytes, at, 2) % N.TYPE_UNIT) };
}

/** The blocks of a zone from an offset on, by their headers; only for bytes that the library has found well-formed. */
function* headersFrom(bytes, from, length) {
  for (let at = from; at < length; ) {
    const { type, size } = headerAt(bytes, at);
    yield blockAt(bytes, type, at, size);
    at += size;
  }
}

/** The zone as the library tells it now. */
function tellZone(library) {
  const { yes, live } = library.check();
  const bytes = library.bytes.slice();
  if (!yes) return { wellFormed: false, bytes, ...rawWalk(bytes) };
  const length = library.length().values[0], first = library.walker_start();
  const zone = { wellFormed: true, bytes, length, first, live, masters: mastersOf(library, bytes, first, live), clock: bytes[N.CLOCK_AT], chain: big(bytes, N.CHAIN_AT, 2) };
  zone.blocks = [];
  zone.walked = 0; // so many blocks are the walker's own answers
  zone.walker = first;
  zone.odd = ""; // where the walker told something else than the headers
  walkOn(library, zone, WALK_MILLISECONDS);
  for (const block of headersFrom(bytes, zone.walker, length)) zone.blocks.push(block);
  zone.bays = baysOf(zone);
  const [total, largest] = library.sum().values;
  zone.total = total;
  zone.largest = largest;
  zone.sumsDiffer = total !== zone.bays.reduce((sum, bay) => sum + bay.sum, 0) || largest !== largestOf(zone.bays, (bay) => bay.sum);
  return zone;
}

/** Asks the walker for so long; answers whether it has told every block. */
function walkOn(library, zone, milliseconds) {
  const until = performance.now() + milliseconds;
  while (zone.walker < zone.length) {
    if (performance.now() > until) return false;
    const { number, walker, values: [type, offset, size] } = library.walker_step(zone.walker);
    const read = zone.blocks[zone.walked];
    if (number !== 0 || size === 0) { zone.odd = `walker_step at ${zone.walker} answers ${number} and size ${size}`; return true; }
    if (read === undefined) zone.blocks.push(blockAt(zone.bytes, type, offset, size));
    else if (read.type !== type || read.offset !== offset || read.size !== size) {
      zone.odd = `walker_step tells ${KIND_NAMES[type]} at ${offset}, size ${size}, and the header ${KIND_NAMES[read.type]} at ${read.offset}, size ${read.size}`;
      return true;
    }
    zone.walked++;
    zone.walker = walker;
  }
  return true;
}

/** The masters by rising offset: live ones are those of the roster, what each holds are its bytes. */
function mastersOf(library, bytes, first, live) {
  const roster = library.roster(new Uint8Array(live * N.RECORD_SIZE)).second;
  const handles = new Set();
  for (let i = 0; i < live; i++) handles.add(big(roster, i * N.RECORD_SIZE, 4));
  const masters = [];
  for (let at = N.ZONE_HEADER; at < first; at += N.MASTER_SIZE) masters.push({ at, live: handles.has(at), holds: big(bytes, at, 4) });
  return masters;
}

/** The stretches between fixed blocks, with their free blocks added up. */
function baysOf(zone) {
  const bays = [];
  let bay = { index: 0, start: zone.first, end: zone.length, free: [], blocks: 0, sum: 0, largest: 0, last: null };
  for (const block of zone.blocks) {
    if (block.type === FIXED) {
      bay.end = block.offset;
      bays.push(bay);
      bay = { index: bays.length, start: block.end, end: zone.length, free: [], blocks: 0, sum: 0, largest: 0, last: null };
      continue;
    }
    block.bay = bay.index;
    bay.blocks++;
    bay.last = block;
    if (block.type === FREE) {
      bay.free.push(block);
      bay.sum += block.size;
      bay.largest = Math.max(bay.largest, block.size);
    }
  }
  bays.push(bay);
  return bays;
}

/** A buffer in which no zone was made yet: there is nothing to walk. */
function noZoneYet(bytes) {
  return { wellFormed: false, fresh: true, bytes, blocks: [], bays: [], masters: [], length: 0, first: 0 };
}

/** Of a buffer that holds no well-formed zone: headers, one after the other, as far as they lead. Read by the page, told by nobody. */
function rawWalk(bytes) {
  const walk = { blocks: [], bays: [], masters: [], length: 0, first: 0, stopped: "" };
  if (bytes.length < N.ZONE_HEADER) return { ...walk, stopped: `the buffer has ${counted(bytes.length, "byte")}, and a header has ${N.ZONE_HEADER}` };
  const length = big(bytes, N.LENGTH_AT, 4), first = big(bytes, N.FIRST_AT, 4);
  const end = Math.min(length, bytes.length);
  if (first < N.ZONE_HEADER || first > end || first % 4) {
    const says = `the header says that the first block lies at ${grouped(first)}, of a zone of ${grouped(length)} bytes in a buffer of ${grouped(bytes.length)}`;
    return { ...walk, stopped: `${says}: no walk starts there` };
  }
  Object.assign(walk, { length, first });
  let at = first;
  while (at + N.SMALLEST <= end) {
    const { type, size } = headerAt(bytes, at);
    if (size < HEADERS[type] || at + size > end) {
      return { ...walk, stopped: `at ${grouped(at)} the header says ${KIND_NAMES[type]}, size ${grouped(size)}: no walk goes on from there` };
    }
    walk.blocks.push(blockAt(bytes, type, at, size));
    at += size;
  }
  const whole = "headers lead from the first block to L; what is wrong is another rule";
  return { ...walk, stopped: at === length ? whole : `the walk ends at ${grouped(at)}, and L is ${grouped(length)}` };
}

/** What became of each block between two zones: those that slid, came, went, changed their size. */
function movesOf(before, after) {
  const moves = { slid: [], came: [], went: [], sized: [] };
  if (!before?.wellFormed || !after.wellFormed) return moves;
  const old = new Map(before.blocks.filter((block) => block.type !== FREE).map((block) => [block.key, block]));
  for (const block of after.blocks) {
    if (block.type === FREE) continue;
    const was = old.get(block.key);
    old.delete(block.key);
    if (!was) moves.came.push(block);
    else {
      if (was.offset !== block.offset) moves.slid.push({ block, was });
      if (was.size !== block.size) moves.sized.push({ block, was });
    }
  }
  for (const block of old.values()) moves.went.push(block);
  return moves;
}
