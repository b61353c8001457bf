// The proved library: the one file that knows the WebAssembly module, its functions and its memory.
// Every answer is what the module gives. A length is 64 bits (BigInt), a place an offset in the module's memory, a value that is
// handed back a 32-bit cell, low byte first as all numbers of WebAssembly are.

const BY = { handle: 0, pointer: 1, name: 2 };
const CELLS = 64; // 32-bit cells for values that are handed back
const APART = 64; // bytes between two regions

class Library {
  /** Of the module's bytes. */
  static async from(bytes) {
    const { instance } = await WebAssembly.instantiate(bytes, {});
    return new Library(instance.exports);
  }

  constructor(exports) {
    this.f = exports;
    const start = Math.ceil(Number(exports.__heap_base.value) / 16) * 16;
    this.cells = start;
    this.zonePlace = start + 4 * CELLS + APART;
    this.copyPlace = this.zonePlace + MOST_BUFFER + APART;
    this.secondPlace = this.copyPlace + MOST_BUFFER + APART;
    const end = this.secondPlace + MOST_BUFFER + APART;
    const missing = end - exports.memory.buffer.byteLength;
    if (missing > 0) exports.memory.grow(Math.ceil(missing / 65536));
    this.place = this.zonePlace;
    this.length_ = 0;
  }

  // -- buffers

  /** The buffer is these bytes from now on. */
  lend(bytes) {
    if (bytes.length > MOST_BUFFER) throw new Fault(`a buffer has at most ${grouped(MOST_BUFFER)} bytes here`);
    this.length_ = bytes.length;
    this.bytes.set(bytes);
  }

  /** The buffer's bytes as they stand in the module's memory. */
  get bytes() {
    return new Uint8Array(this.f.memory.buffer, this.place, this.length_);
  }

  /** What a call would do: it is made on a copy of the buffer, or of another one of its length, which is then forgotten. */
  onCopy(work, bytes = this.bytes) {
    new Uint8Array(this.f.memory.buffer, this.copyPlace, this.length_).set(bytes);
    this.place = this.copyPlace;
    try {
      return work();
    } finally {
      this.place = this.zonePlace;
    }
  }

  get n() {
    return BigInt(this.length_);
  }

  cell(i) {
    return this.cells + 4 * i;
  }

  value(i) {
    return new DataView(this.f.memory.buffer).getUint32(this.cell(i), true);
  }

  values(count) {
    return Array.from({ length: count }, (_, i) => this.value(i));
  }

  /** Zeros into the cells, so that no old value is taken for an answer. */
  clear(count) {
    new Uint8Array(this.f.memory.buffer, this.cells, 4 * count).fill(0);
  }

  second(bytes) {
    if (bytes.length > MOST_BUFFER) throw new Fault(`a second buffer has at most ${grouped(MOST_BUFFER)} bytes here`);
    new Uint8Array(this.f.memory.buffer, this.secondPlace, bytes.length).set(bytes);
  }

  secondAfter(count) {
    return new Uint8Array(this.f.memory.buffer, this.secondPlace, count).slice();
  }

  /** A call that hands back a number and so many values through cells. */
  told(name, words, count) {
    this.clear(count);
    const cells = Array.from({ length: count }, (_, i) => this.cell(i));
    const number = this.f[name](this.place, this.n, ...words, ...cells) >>> 0;
    return { number, values: this.values(count) };
  }

  // -- calls

  initialize(length, masters) { return this.told("nafelode_initialize", [length, masters], 0); }
  allocate_relocatable(c) { return this.told("nafelode_allocate_relocatable", [c], 1); }
  allocate_fixed(c) { return this.told("nafelode_allocate_fixed", [c], 1); }
  free_handle(handle) { return this.told("nafelode_free_handle", [handle], 0); }
  free_pointer(pointer) { return this.told("nafelode_free_pointer", [pointer], 0); }
  resize(handle, c) { return this.told("nafelode_resize", [handle, c], 0); }
  size(by, block) { return this.told("nafelode_size", [BY[by], block], 1); }
  create_page(name, c) { return this.told("nafelode_create_page", [name, c], 1); }
  use_page(name) { return this.told("nafelode_use_page", [name], 1); }
  set_dirty(name) { return this.told("nafelode_set_dirty", [name], 0); }
  clear_dirty(name) { return this.told("nafelode_clear_dirty", [name], 0); }
  set_lock(name) { return this.told("nafelode_set_lock", [name], 0); }
  clear_lock(name) { return this.told("nafelode_clear_lock", [name], 0); }
  drop_page(name) { return this.told("nafelode_drop_page", [name], 0); }
  compact() { return this.told("nafelode_compact", [], 1); }
  sum() { return this.told("nafelode_sum", [], 2); }
  length() { return this.told("nafelode_length", [], 1); }
  enlarge(k) { return this.told("nafelode_enlarge", [k], 0); }
  shrink(k) { return this.told("nafelode_shrink", [k], 1); }

  /** Yes or no is the function's own answer, and no refusal. */
  check() {
    const told = this.told("nafelode_check", [], 1);
    return { yes: told.number, live: told.values[0] };
  }

  read(by, block, offset, count, out) {
    this.second(out);
    const { number } = this.told("nafelode_read", [BY[by], block, offset, count, this.secondPlace, BigInt(out.length)], 0);
    return { number, second: this.secondAfter(out.length) };
  }

  write(by, block, offset, count, src) {
    this.second(src);
    const { number } = this.told("nafelode_write", [BY[by], block, offset, count, this.secondPlace, BigInt(src.length)], 0);
    return { number, second: this.secondAfter(src.length) };
  }

  /** Where a part of the zone lies; no number. */
  view(by, block, offset, count) {
    const told = this.told("nafelode_view", [BY[by], block, offset, count], 1);
    return { offset: told.number, length: told.values[0] };
  }

  roster(out) {
    this.second(out);
    const told = this.told("nafelode_roster", [this.secondPlace, BigInt(out.length)], 1);
    return { ...told, second: this.secondAfter(out.length) };
  }

  census(limits) {
    this.second(limits);
    this.clear(N.STRATA);
    const number = this.f.nafelode_census(this.place, this.n, this.secondPlace, BigInt(limits.length), this.cell(0)) >>> 0;
    return { number, values: this.values(N.STRATA) };
  }

  walker_start() {
    return this.f.nafelode_walker_start(this.place, this.n) >>> 0;
  }

  /** The walker is the caller's: it is handed in, and back where it is after the step. */
  walker_step(walker) {
    this.clear(4);
    new DataView(this.f.memory.buffer).setUint32(this.cell(0), walker, true);
    const number = this.f.nafelode_walker_step(this.place, this.n, this.cell(0), this.cell(1), this.cell(2), this.cell(3)) >>> 0;
    const [after, type, offset, size] = this.values(4);
    return { number, walker: after, values: [type, offset, size] };
  }
}
