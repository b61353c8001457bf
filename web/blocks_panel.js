// The blocks as a table, and the buffer's bytes, sixteen a row.

const SHOWN_BYTES = 12;

class BlocksPanel {
  constructor(app) {
    this.app = app;
    this.rows = new Rows(byId("blocks"), 22, { row: (i) => this.row(i), marked: (i) => app.select(app.zone.blocks[i]), entered: (i) => app.select(app.zone.blocks[i]) });
  }

  paint() {
    const { blocks } = this.app.zone;
    this.rows.show(blocks.length, this.app.chosen ? blocks.indexOf(this.app.chosen) : -1);
    this.told();
  }

  /** Whose blocks these are. */
  told() {
    const zone = this.app.zone, all = zone.blocks.length;
    if (zone.fresh) return setText("blocks-told", "none yet", "");
    if (!zone.wellFormed) return setText("blocks-told", `raw: ${counted(all, "header")} read by the page, not told by the library`, "bad");
    if (zone.odd) return setText("blocks-told", `the walker and the headers differ: ${zone.odd}`, "bad");
    if (zone.walked === all) return setText("blocks-told", `${all === 1 ? "the one block is" : `all ${grouped(all)} are`} the walker’s answers`, "");
    setText("blocks-told", `${grouped(all)}, read from headers after the check said yes; the walker has told ${grouped(zone.walked)} so far, all alike`, "");
  }

  reveal(block) {
    this.rows.show(this.app.zone.blocks.length, this.app.zone.blocks.indexOf(block));
  }

  row(i) {
    const block = this.app.zone.blocks[i], bytes = this.app.zone.bytes;
    const data = bytes.subarray(block.data, Math.min(block.end, block.data + SHOWN_BYTES));
    const shown = block.type === FREE ? "" : Array.from(data, (byte) => PAIRS[byte]).join(" ") + (block.dataSize > SHOWN_BYTES ? " …" : "");
    const name = block.name + (block.type === PAGE ? `, ${ageWords(block)}` : "");
    const kind = element("span", {}, element("i", { class: "swatch", style: `background: ${fillOf(block)}` }), KINDS[block.type]);
    const places = block.type === FREE ? ["", ""] : [block.data, block.dataSize];
    return element("div", { class: "block-row", role: "option" }, numberCell(block.offset), kind, numberCell(block.size), element("span", {}, name),
      ...places.map(numberCell), numberCell(block.bay ?? ""), element("span", { class: "mono" }, shown));
  }
}

function differing(a, b) {
  let count = 0;
  for (let i = 0; i < a.length; i++) if (a[i] !== b[i]) count++;
  return count;
}

function numberCell(number) {
  return element("span", { class: "number" }, typeof number === "number" ? grouped(number) : number);
}

class BytesPanel {
  constructor(app) {
    this.app = app;
    this.rows = new Rows(byId("bytes"), 18, { row: (i) => this.row(i) });
  }

  paint() {
    const { zone, before } = this.app;
    const changed = before && before !== zone.bytes ? differing(zone.bytes, before) : 0;
    const length = `${counted(zone.bytes.length, "byte")} of the buffer`;
    setText("bytes-told", before ? `${length}; the last step changed ${changed ? grouped(changed) : "none"}${changed ? ", framed" : ""}` : length);
    this.rows.show(Math.ceil(zone.bytes.length / 16));
  }

  reveal(offset) {
    this.rows.reveal(Math.floor(offset / 16));
    this.rows.paint(true);
  }

  row(i) {
    const { zone, before, chosen } = this.app;
    const cells = [];
    let text = "";
    let block = null;
    for (let at = 16 * i; at < Math.min(16 * i + 16, zone.bytes.length); at++) {
      if (!block || at >= block.end) block = this.blockAt(at);
      const classes = [this.kindOf(at, block)];
      if (block && at < block.data && block.type !== FREE) classes.push("tag");
      if (before && before[at] !== zone.bytes[at]) classes.push("changed");
      if (chosen && at >= chosen.offset && at < chosen.end) classes.push("chosen");
      cells.push(element("b", { class: classes.join(" ") }, PAIRS[zone.bytes[at]]));
      const byte = zone.bytes[at];
      text += byte >= 32 && byte < 127 ? String.fromCharCode(byte) : ".";
    }
    return element("div", {}, element("span", { class: "at" }, grouped(16 * i)), element("span", { class: "cells" }, ...cells), element("span", { class: "text" }, text));
  }

  /** The block in which an offset lies, by halving. */
  blockAt(at) {
    const { blocks } = this.app.zone;
    let low = 0, high = blocks.length - 1;
    while (low < high) {
      const middle = (low + high + 1) >> 1;
      if (blocks[middle].offset <= at) low = middle; else high = middle - 1;
    }
    const block = blocks[low];
    return block && at >= block.offset && at < block.end ? block : null;
  }

  kindOf(at, block) {
    const zone = this.app.zone;
    if (block) return `kind-${KINDS[block.type]}`;
    if (zone.fresh) return "beyond";
    if (at < N.ZONE_HEADER) return "kind-header";
    if (!zone.wellFormed || at >= zone.length) return "beyond";
    return zone.masters[Math.floor((at - N.ZONE_HEADER) / N.MASTER_SIZE)].live ? "kind-live" : "kind-chained";
  }
}
