// The parts of the bar on a canvas: by kind in colour, pattern and words; what is too narrow is gathered by columns.

const BAR_TOP = 62, BAR_HIGH = 50, BAR_END = BAR_TOP + BAR_HIGH;
const FONT = "11px 'DejaVu Sans', Verdana, Helvetica, sans-serif";
const SMALL_FONT = "10px 'DejaVu Sans', Verdana, Helvetica, sans-serif";

class Bar {
  fillOfPart(part) {
    if (part.block) return fillOf(part.block);
    return { header: DATA.palette.HEADER, masters: DATA.palette.MASTER_FREE, beyond: this.ink.ground, buffer: this.ink.ground }[part.kind];
  }

  outline(x, width) {
    const c = this.context;
    c.lineWidth = 3;
    c.strokeStyle = this.ink.ink;
    c.strokeRect(x - 0.5, BAR_TOP - 2, width + 1, BAR_HIGH + 4);
  }

  box(part, x, width) {
    if (x > this.wide || x + width < 0) return;
    if (width < 1.5) return this.inColumn(part, x, width);
    const c = this.context, colours = DATA.palette;
    if (part.kind === "masters" && this.zone.wellFormed) return this.paintMasters(x, width);
    const raw = !this.zone.wellFormed && !this.zone.fresh;
    const gap = width > 4 ? 1 : 0;
    c.fillStyle = this.fillOfPart(part);
    c.fillRect(x, BAR_TOP, width - gap, BAR_HIGH);
    const pattern = raw ? "raw" : part.block?.dirty ? "dirty" : part.kind;
    if (this.pattern(pattern)) { c.fillStyle = this.pattern(pattern); c.fillRect(x, BAR_TOP, width - gap, BAR_HIGH); }
    if (part.block?.lock && width > 9) { c.strokeStyle = colours.INK; c.lineWidth = 2.4; c.strokeRect(x + 3, BAR_TOP + 3, width - gap - 6, BAR_HIGH - 6); }
    if (part.key && part.key === this.chosen) this.outline(x, width - gap);
    if (width > 8) this.label(part, x, width - gap);
  }

  label(part, x, width) {
    const words = wordsFor(part, this.zone);
    if (!words) return;
    const c = this.context;
    c.font = FONT;
    c.textAlign = "center";
    c.textBaseline = "middle";
    const room = width - 5;
    const name = words.names.find((text) => c.measureText(text).width <= room);
    if (!name) return;
    const size = words.sizes.find((text) => c.measureText(text).width <= room);
    c.fillStyle = words.ink;
    const middle = x + width / 2, centre = BAR_TOP + BAR_HIGH / 2;
    if (!this.zone.wellFormed || (part.block && this.pattern(part.block.dirty ? "dirty" : part.kind))) {
      const wide = Math.max(c.measureText(name).width, size ? c.measureText(size).width : 0);
      this.plate(part, middle, centre, wide, size ? 30 : 16, words.ink);
    }
    c.fillText(name, middle, size ? centre - 7 : centre);
    if (size) c.fillText(size, middle, centre + 8);
  }

  /** Plain ground behind words on a pattern, so that they can be read. */
  plate(part, middle, centre, width, high, ink) {
    const c = this.context;
    c.fillStyle = this.fillOfPart(part);
    if (part.block?.dirty) c.fillStyle = "#bfe6ba";
    c.fillRect(middle - width / 2 - 2, centre - high / 2, width + 4, high);
    c.fillStyle = ink;
  }

  paintMasters(x, width) {
    const c = this.context, masters = this.zone.masters, each = width / masters.length;
    const from = Math.max(0, Math.floor(-x / each)), to = Math.min(masters.length, Math.ceil((this.wide - x) / each) + 1);
    c.textAlign = "center";
    c.textBaseline = "middle";
    c.font = each < 30 ? SMALL_FONT : FONT;
    const skip = Math.max(1, Math.floor(0.5 / each));
    for (let i = from; i < to; i += skip) {
      const master = masters[i];
      c.fillStyle = master.live ? DATA.palette.MASTER_LIVE : DATA.palette.MASTER_FREE;
      c.fillRect(x + i * each, BAR_TOP, Math.max(1, each - (each > 4 ? 1 : 0)), BAR_HIGH);
      if (each < 20) continue;
      c.fillStyle = master.live ? "#ffffff" : DATA.palette.INK;
      const middle = x + (i + 0.5) * each;
      c.fillText(String(master.at), middle, BAR_TOP + 20);
      const says = master.live ? `→ ${master.holds}` : master.holds ? `› ${master.holds}` : "end";
      if (c.measureText(says).width <= each - 3) c.fillText(says, middle, BAR_TOP + 37);
    }
    if (each < 20 && width > 70) {
      const words = `${grouped(this.zone.live)} of ${grouped(masters.length)} masters live`;
      const short = `${grouped(masters.length)} masters`;
      c.font = SMALL_FONT;
      const said = [words, short].find((text) => c.measureText(text).width < width - 8);
      if (said) {
        const wide = c.measureText(said).width + 8;
        c.fillStyle = this.ink.card;
        c.fillRect(x + width / 2 - wide / 2, BAR_TOP + 18, wide, 18);
        c.fillStyle = this.ink.ink;
        c.fillText(said, x + width / 2, BAR_TOP + 27);
      }
    }
  }

  /** What is narrower than a pixel and a half is gathered, and drawn by its share of each pixel's column. */
  inColumn(part, x, width) {
    if (!part.block) return;
    this.columns ??= new Float32Array(4 * (Math.ceil(this.wide) + 1));
    const column = Math.floor(x);
    if (column < 0 || column > this.wide) return;
    this.columns[4 * column + part.block.type] += width;
  }

  paintColumns() {
    if (!this.columns) return;
    const c = this.context, fills = [DATA.palette.FREE, DATA.palette.FIXED, DATA.palette.RELOCATABLE, DATA.palette.PAGE];
    for (let x = 0; x <= this.wide; x++) {
      const all = this.columns[4 * x] + this.columns[4 * x + 1] + this.columns[4 * x + 2] + this.columns[4 * x + 3];
      if (all === 0) continue;
      let y = BAR_TOP;
      for (const type of [RELOCATABLE, PAGE, FIXED, FREE]) {
        const high = (BAR_HIGH * this.columns[4 * x + type]) / all;
        c.fillStyle = fills[type];
        c.fillRect(x, y, 1, high);
        y += high;
      }
    }
  }

  pattern(kind) {
    if (this.patterns[kind] !== undefined) return this.patterns[kind];
    const tile = document.createElement("canvas");
    tile.width = tile.height = kind === "dirty" ? 16 : 8;
    const c = tile.getContext("2d");
    const drawn = PATTERNS[kind]?.(c, tile.width);
    this.patterns[kind] = drawn ? this.context.createPattern(tile, "repeat") : null;
    return this.patterns[kind];
  }
}

// What tells kinds apart without colour: dots for free bytes, a lattice for fixed blocks, lines for pages, stripes for dirty ones.
const PATTERNS = {
  free(c) {
    c.fillStyle = "rgba(90, 60, 0, 0.55)";
    c.fillRect(1, 1, 1.4, 1.4);
    c.fillRect(5, 5, 1.4, 1.4);
    return true;
  },
  fixed(c, side) {
    c.strokeStyle = "rgba(255, 255, 255, 0.28)";
    c.lineWidth = 1;
    c.beginPath();
    c.moveTo(0, 0); c.lineTo(side, side); c.moveTo(side, 0); c.lineTo(0, side);
    c.stroke();
    return true;
  },
  page(c, side) {
    c.fillStyle = "rgba(20, 80, 20, 0.3)";
    c.fillRect(0, 3, side, 1);
    return true;
  },
  dirty(c, side) {
    c.strokeStyle = "#bfe6ba";
    c.lineWidth = 5;
    c.beginPath();
    for (const at of [-side, 0, side]) { c.moveTo(at - 2, side + 2); c.lineTo(at + side + 2, -2); }
    c.stroke();
    return true;
  },
  raw(c, side) {
    c.fillStyle = "rgba(255, 255, 255, 0.4)";
    c.fillRect(0, 0, side, 2);
    return true;
  },
  beyond: hatched,
  buffer: hatched,
};

function hatched(c, side) {
  c.strokeStyle = "rgba(128, 128, 128, 0.4)";
  c.beginPath();
  c.moveTo(0, side); c.lineTo(side, 0);
  c.stroke();
  return true;
}

function fillOf(block) {
  return [DATA.palette.FREE, DATA.palette.FIXED, DATA.palette.RELOCATABLE, DATA.palette.PAGE][block.type];
}

/** Words for a part, the longest first; of each kind the first that fits is written. */
function wordsFor(part, zone) {
  const ink = DATA.palette.INK, bytes = [`${grouped(part.size)} bytes`, grouped(part.size)];
  if (part.kind === "header") return { names: ["header"], sizes: zone.wellFormed ? [`chain ${zone.chain}, clock ${zone.clock}`, "16 bytes"] : ["16 bytes?"], ink: "#ffffff" };
  if (part.kind === "beyond") return { names: [zone.wellFormed ? "beyond L" : "not walked", "…"], sizes: bytes, ink: "#808a90" };
  if (part.kind === "buffer") return { names: ["no zone yet", "…"], sizes: bytes, ink: "#808a90" };
  if (part.kind === "masters") return { names: ["masters?"], sizes: [], ink };
  const block = part.block;
  if (block.type === FREE) return { names: [`free ${grouped(block.size)}`, `f ${grouped(block.size)}`, "f"], sizes: [], ink };
  if (block.type === FIXED) return { names: [`pointer ${block.pointer}`, `p ${block.pointer}`, "p"], sizes: bytes, ink: "#ffffff" };
  if (block.type === RELOCATABLE) return { names: [`handle ${block.handle}`, `h ${block.handle}`, "h"], sizes: bytes, ink };
  const age = ageWords(block);
  return { names: [`page ${block.page}`, `n ${block.page}`, "n"], sizes: [`${age}, ${bytes[0]}`, age, `age ${block.age}`], ink };
}
