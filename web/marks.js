// What stands above and below the bar: offsets, bays, the chain, arrows from masters, and how far blocks slid.

const SLIDE_AT = BAR_END + 7, OFFSETS_AT = BAR_END + 24, BAYS_AT = BAR_END + 34;
const MOST_ARROWS = 240;

class Marks extends Bar {
  paintOffsets(first, last) {
    const c = this.context;
    c.font = SMALL_FONT;
    c.textBaseline = "alphabetic";
    c.textAlign = "left";
    c.fillStyle = this.ink.faint;
    let free = -Infinity;
    const put = (offset, x) => {
      if (x < free) return;
      const text = grouped(offset), width = c.measureText(text).width;
      if (x + width > this.wide) return;
      c.fillText(text, x, OFFSETS_AT);
      c.fillRect(x, BAR_END, 1, 5);
      free = x + width + 10;
    };
    for (let i = first; i <= last; i++) if (this.parts[i].kind !== "masters") put(this.parts[i].start, this.edges[i] - this.left); // masters bear their offsets
    const end = this.parts[this.parts.length - 1].kind === "beyond" ? this.parts.length - 1 : this.parts.length;
    const x = this.edges[end] - this.left;
    if (x >= 0 && x <= this.wide + 2 && this.zone.wellFormed) {
      c.fillStyle = this.ink.ink;
      c.fillRect(x - 1, BAR_TOP - 5, 2, BAR_HIGH + 10);
      c.font = "bold 11px 'DejaVu Sans', Verdana, sans-serif";
      c.textAlign = x > this.wide - 70 ? "right" : "left";
      c.fillText(`L ${grouped(this.zone.length)}`, x + (c.textAlign === "right" ? -4 : 4), BAR_TOP - 9);
    }
  }

  /** Above bytes that hold no zone, so that nobody takes the picture for the library's word. */
  paintRaw() {
    const c = this.context;
    c.font = "bold 13px 'DejaVu Sans', Verdana, sans-serif";
    c.textAlign = "left";
    c.textBaseline = "alphabetic";
    c.fillStyle = this.ink.bad;
    c.fillText("RAW BYTES: not a well-formed zone, and not told by the library", 0, BAR_TOP - 12);
    c.strokeStyle = this.ink.bad;
    c.lineWidth = 2;
    c.setLineDash([7, 5]);
    c.strokeRect(1, BAR_TOP - 3, Math.min(this.wide, this.edges[this.parts.length] - this.left) - 2, BAR_HIGH + 6);
    c.setLineDash([]);
  }

  paintBays() {
    const c = this.context;
    c.font = SMALL_FONT;
    c.textAlign = "left";
    c.textBaseline = "alphabetic";
    let column = -1;
    for (const bay of this.zone.bays) {
      const left = this.xOf(bay.start) - this.left, right = (bay.end === bay.start ? this.xOf(bay.start) : this.xEnd(bay.end)) - this.left;
      if (right < 0 || left > this.wide) continue;
      if (right - left < 1.5 && Math.floor(left) === column) continue;
      column = Math.floor(left);
      const goes = this.asked && this.asked.chosen === bay.index && this.asked.tried.number === 0;
      c.strokeStyle = goes ? this.ink.good : this.ink.bay;
      c.lineWidth = goes ? 3 : 1.6;
      c.beginPath();
      c.moveTo(left + 0.8, BAYS_AT - 4);
      c.lineTo(left + 0.8, BAYS_AT + 3);
      if (right - left > 2) {
        c.moveTo(left + 0.8, BAYS_AT);
        c.lineTo(right - 1.8, BAYS_AT);
        c.moveTo(right - 1.8, BAYS_AT - 4);
        c.lineTo(right - 1.8, BAYS_AT + 3);
      }
      c.stroke();
      this.bayWords(bay, Math.max(left, 0), Math.min(right, this.wide));
    }
  }

  bayWords(bay, left, right) {
    if (right - left < 24) return;
    const c = this.context;
    const pieces = bay.free.length > 1 && bay.free.length <= 12 ? ` = ${bay.free.map((hole) => grouped(hole.size)).join(" + ")}` : "";
    const sum = `bay ${bay.index}: sum ${grouped(bay.sum)}`;
    const found = this.asked?.bays[bay.index];
    const reaches = !found || found.need === 0 ? "" : found.reaches ? `, reaches ${grouped(found.need)}` : `, below ${grouped(found.need)}`;
    const choice = [`${sum}${pieces}${reaches}`, `${sum}${reaches}`, sum, `${bay.index}: ${grouped(bay.sum)}`];
    const words = choice.find((text) => c.measureText(text).width <= right - left - 6);
    if (!words) return;
    c.fillStyle = !found ? this.ink.ink : found.reaches ? this.ink.good : this.ink.bad;
    c.fillText(words, left + 4, BAYS_AT + 15);
  }

  /** The right edge of what ends at an offset. */
  xEnd(offset) {
    return offset === this.zone.length ? this.edges[this.parts[this.parts.length - 1].kind === "beyond" ? this.parts.length - 1 : this.parts.length] : this.xOf(offset);
  }

  masterX(at) {
    const i = this.places.get("masters");
    const masters = this.zone.masters.length;
    return this.edges[i] + ((this.edges[i + 1] - this.edges[i]) * ((at - N.ZONE_HEADER) / N.MASTER_SIZE + 0.5)) / masters - this.left;
  }

  /** Free masters: from the header to the first, and from each to the next, below the bar. */
  paintChain() {
    const i = this.places.get("masters");
    if (i === undefined || !this.zone.chain || (this.edges[i + 1] - this.edges[i]) / this.zone.masters.length < 14) return;
    const c = this.context;
    c.strokeStyle = this.ink.arrow;
    c.lineWidth = 1.2;
    c.setLineDash([3, 3]);
    let from = 8 - this.left, at = this.zone.chain;
    for (let count = 0; at && count < 400; count++) {
      const to = this.masterX(at);
      if (Math.max(from, to) > 0 && Math.min(from, to) < this.wide) {
        const deep = BAR_END + 14 + Math.min(22, Math.abs(to - from) / 8);
        c.beginPath();
        c.moveTo(from, BAR_END + 1);
        c.bezierCurveTo(from, deep, to, deep, to, BAR_END + 3);
        c.stroke();
        this.head(to, BAR_END + 1, -1, this.ink.arrow, 3);
      }
      from = to;
      at = this.zone.masters[(at - N.ZONE_HEADER) / N.MASTER_SIZE].holds;
    }
    c.setLineDash([]);
  }

  /** From each live master to where its block's data start; while the block slides, the arrow goes with it. */
  paintArrows(first, last, gone) {
    const live = [];
    for (let i = first; i <= last; i++) if (this.parts[i].kind === "relocatable" && this.edges[i + 1] - this.edges[i] > 3) live.push(i);
    const slid = new Set(this.moves.slid.map(({ block }) => block.key));
    if (this.old) {
      for (const { block } of this.moves.slid) {
        const i = this.places.get(block.key);
        if (block.type === RELOCATABLE && i !== undefined && (i < first || i > last)) live.push(i); // on its way out of sight
      }
    }
    if (live.length <= MOST_ARROWS) {
      for (const i of live) this.arrow(this.parts[i], this.boxOf(i, gone), slid.has(this.parts[i].key) ? this.ink.changed : this.ink.arrow, slid.has(this.parts[i].key));
    }
    const chosen = this.places.get(this.chosen);
    if (chosen !== undefined && this.parts[chosen].kind === "relocatable") this.arrow(this.parts[chosen], this.boxOf(chosen, gone), this.ink.ink, true);
  }

  arrow(part, box, colour, strong) {
    const c = this.context;
    const from = this.masterX(part.block.handle);
    const to = box.x + (box.width * (part.block.data - part.block.offset)) / part.block.size;
    const top = BAR_TOP - 14 - Math.min(58, 10 + Math.abs(to - from) * 0.09);
    c.strokeStyle = colour;
    c.lineWidth = strong ? 2 : 1.2;
    c.beginPath();
    if (from < -40 || from > this.wide + 40) { // the master is out of sight: the arrow's end alone
      c.moveTo(to, BAR_TOP - 16);
      c.lineTo(to, BAR_TOP - 5);
    } else {
      c.moveTo(from, BAR_TOP);
      c.bezierCurveTo(from, top, to, top, to, BAR_TOP - 5);
    }
    c.stroke();
    this.head(to, BAR_TOP - 1, 1, colour, strong ? 5 : 4);
  }

  /** An arrow's head with its point at (x, y), down for 1 and up for -1. */
  head(x, y, down, colour, size) {
    const c = this.context;
    c.fillStyle = colour;
    c.beginPath();
    c.moveTo(x, y);
    c.lineTo(x - size, y - down * size * 1.7);
    c.lineTo(x + size, y - down * size * 1.7);
    c.fill();
  }

  /** Below the bar: from where a block began before the step to where it begins now. */
  paintSlides(gone) {
    const c = this.context;
    for (const { block, was } of this.moves.slid.slice(0, MOST_ARROWS)) {
      const i = this.places.get(block.key);
      if (i === undefined) continue;
      const { x, width } = this.boxOf(i, gone);
      if (x > this.wide || x + width < 0 || width < 3) continue;
      const by = block.offset - was.offset, end = x + (by > 0 ? 3 : 3);
      const start = Math.max(-20, Math.min(this.wide + 20, x - (by * (this.edges[i + 1] - this.edges[i])) / block.size));
      c.fillStyle = this.ink.changed;
      c.fillRect(Math.min(start, end), SLIDE_AT - 1, Math.abs(end - start), 2);
      c.beginPath();
      c.moveTo(end + (by > 0 ? 3 : -3), SLIDE_AT);
      c.lineTo(end - (by > 0 ? 4 : -4), SLIDE_AT - 4);
      c.lineTo(end - (by > 0 ? 4 : -4), SLIDE_AT + 4);
      c.fill();
    }
  }
}
