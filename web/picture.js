// The zone as a bar on a canvas that zooms and scrolls. What slid is seen sliding.

const MOST_SCALE = 28; // pixels a byte
const SLIDE_MILLISECONDS = 700;
const MOST_SLIDING = 20000; // parts

class Picture extends Marks {
  constructor(canvas, scroller, spacer, { selected, pointed }) {
    super();
    Object.assign(this, { canvas, scroller, spacer, selected, pointed });
    this.context = canvas.getContext("2d");
    this.zoom = 1;
    this.zone = null;
    this.chosen = ""; // key of the block that is selected
    this.moves = { slid: [], came: [], went: [], sized: [] };
    this.old = null; // where parts were before the last step, while they slide
    this.patterns = {};
    this.asked = null; // what is asked of the bays, with what each has
    this.frame = 0;
    this.left = 0; // how far it is scrolled
    this.measure();
    scroller.addEventListener("scroll", () => { this.left = scroller.scrollLeft; this.paintSoon(); });
    canvas.addEventListener("pointermove", (event) => pointed(this.partAt(event)));
    canvas.addEventListener("pointerleave", () => pointed(null));
    canvas.addEventListener("click", (event) => { const part = this.partAt(event); if (part) selected(part); });
    scroller.addEventListener("wheel", (event) => this.wheel(event), { passive: false });
    new ResizeObserver(() => this.measure()).observe(scroller);
  }

  /** The question that the bays are held against. */
  ask(fit) {
    this.asked = fit;
    this.paintSoon();
  }

  wheel(event) {
    if (!event.ctrlKey) return; // the page scrolls
    event.preventDefault();
    this.zoomBy(event.deltaY < 0 ? 1.25 : 0.8, event.offsetX);
  }

  /** Another zone. With a zone before and its moves, blocks slide from where they were. */
  show(zone, moves, sliding) {
    const old = this.zone && this.zone.wellFormed && zone.wellFormed ? { parts: this.parts, edges: this.edges, zone: this.zone } : null;
    if (!this.zone || this.zone.bytes.length !== zone.bytes.length) { this.zoom = 1; this.left = 0; }
    this.zone = zone;
    this.moves = moves;
    this.parts = partsOf(zone);
    this.places = new Map(this.parts.map((part, i) => [part.key, i]));
    this.old = null;
    this.lay();
    const milliseconds = sliding && old && !matchMedia("(prefers-reduced-motion: reduce)").matches ? sliding : 0;
    if (milliseconds && this.parts.length < MOST_SLIDING) {
      this.old = { ...old, places: new Map(old.parts.map((part, i) => [part.key, i])), since: performance.now(), milliseconds };
    }
    this.paintSoon();
  }

  /** Sizes and colours, which the browser is asked for only where they may have changed. */
  measure() {
    this.wide = Math.max(200, this.scroller.clientWidth);
    this.high = this.canvas.clientHeight;
    this.ratio = window.devicePixelRatio || 1;
    this.canvas.width = Math.round(this.wide * this.ratio);
    this.canvas.height = Math.round(this.high * this.ratio);
    this.canvas.style.width = `${this.wide}px`;
    this.colours();
    if (this.zone) this.lay();
  }

  lay() {
    const bytes = Math.max(this.zone.bytes.length, 16);
    this.mostZoom = Math.max(1, (bytes * MOST_SCALE) / this.wide);
    this.zoom = Math.min(this.zoom, this.mostZoom);
    const full = Math.floor(this.wide * this.zoom) - 2;
    Object.assign(this, edgesOf(this.parts, full));
    this.spacer.style.width = this.zoom === 1 ? "100%" : `${full + 2}px`;
    this.paintSoon();
  }

  colours() {
    const style = getComputedStyle(this.canvas);
    const names = ["ink", "faint", "line", "bay", "changed", "good", "bad", "arrow", "ground", "card"];
    this.ink = Object.fromEntries(names.map((name) => [name, style.getPropertyValue(`--${name}`).trim()]));
  }

  zoomBy(factor, at = this.wide / 2) {
    const place = this.offsetAt(this.left + at);
    this.zoom = Math.max(1, Math.min(this.mostZoom, this.zoom * factor));
    this.lay();
    this.scrollTo(this.xOf(place) - at);
  }

  fit() {
    this.zoom = 1;
    this.lay();
    this.scrollTo(0);
  }

  scrollTo(left) {
    this.scroller.scrollLeft = left;
    this.left = this.scroller.scrollLeft;
  }

  /** Brings a block into view, wide enough to be read. */
  reveal(key) {
    const i = this.places.get(key);
    if (i === undefined) return;
    const width = this.edges[i + 1] - this.edges[i];
    if (width < 6) { this.zoom = Math.min(this.mostZoom, (this.zoom * 48) / width); this.lay(); }
    const left = this.edges[i], right = this.edges[i + 1];
    if (left < this.left || right > this.left + this.wide) this.scrollTo((left + right) / 2 - this.wide / 2);
    this.paintSoon();
  }

  /** The part at a place of the bar, by halving. */
  indexAt(x) {
    let low = 0, high = this.parts.length - 1;
    while (low < high) {
      const middle = (low + high + 1) >> 1;
      if (this.edges[middle] <= x) low = middle; else high = middle - 1;
    }
    return low;
  }

  offsetAt(x) {
    const i = this.indexAt(x), part = this.parts[i];
    return part.start + (part.size * (x - this.edges[i])) / Math.max(1e-9, this.edges[i + 1] - this.edges[i]);
  }

  xOf(offset) {
    let low = 0, high = this.parts.length - 1;
    while (low < high) {
      const middle = (low + high + 1) >> 1;
      if (this.parts[middle].start <= offset) low = middle; else high = middle - 1;
    }
    const part = this.parts[low];
    return this.edges[low] + ((this.edges[low + 1] - this.edges[low]) * (offset - part.start)) / part.size;
  }

  partAt(event) {
    if (!this.zone) return null;
    const box = this.canvas.getBoundingClientRect();
    const y = event.clientY - box.top;
    if (y < BAR_TOP || y > BAR_END) return null;
    const x = this.left + event.clientX - box.left;
    const part = this.parts[this.indexAt(x)];
    if (x > this.edges[this.parts.length]) return null;
    if (part.kind !== "masters") return part;
    const i = Math.floor((this.offsetAt(x) - N.ZONE_HEADER) / N.MASTER_SIZE);
    return { ...part, master: this.zone.masters[i] };
  }

  paintSoon() {
    if (!this.frame) this.frame = requestAnimationFrame(() => { this.frame = 0; this.paint(); });
  }

  paint() {
    if (!this.zone) return;
    const c = this.context;
    let gone = 1; // how far the slide is
    if (this.old) {
      const linear = Math.min(1, (performance.now() - this.old.since) / this.old.milliseconds);
      gone = linear < 0.5 ? 2 * linear * linear : 1 - (2 - 2 * linear) ** 2 / 2;
      if (linear === 1) this.old = null;
    }
    c.setTransform(this.ratio, 0, 0, this.ratio, 0, 0);
    c.clearRect(0, 0, this.wide, this.high);
    this.columns = null;
    const first = this.indexAt(this.left), last = this.indexAt(this.left + this.wide);
    this.paintFree(first, last, gone);
    this.paintWent(gone);
    for (let i = first; i <= last; i++) if (this.parts[i].kind !== "free") this.paintPart(i, gone);
    if (this.old) this.paintComing(first, last, gone);
    this.paintColumns();
    this.paintOffsets(first, last);
    if (!this.zone.wellFormed && !this.zone.fresh) this.paintRaw();
    if (this.zone.wellFormed) {
      this.paintBays();
      this.paintChain();
      this.paintArrows(first, last, gone);
      this.paintSlides(gone);
    }
    if (this.old) this.paintSoon();
  }

  /** Where a part is drawn now: on its way from its old place, while it slides. */
  boxOf(i, gone) {
    let left = this.edges[i], right = this.edges[i + 1];
    const was = this.old && this.parts[i].key ? this.old.places.get(this.parts[i].key) : undefined;
    if (was !== undefined) {
      left = this.old.edges[was] + (left - this.old.edges[was]) * gone;
      right = this.old.edges[was + 1] + (right - this.old.edges[was + 1]) * gone;
    }
    return { x: left - this.left, width: right - left };
  }

  /** Free bytes are the ground: those of before fade, those of now appear, blocks slide over both. */
  paintFree(first, last, gone) {
    const c = this.context;
    if (this.old) {
      c.globalAlpha = 1 - gone;
      this.old.parts.forEach((part, i) => { if (part.kind === "free") this.box(part, this.old.edges[i] - this.left, this.old.edges[i + 1] - this.old.edges[i]); });
      c.globalAlpha = gone;
    }
    for (let i = first; i <= last; i++) if (this.parts[i].kind === "free") this.paintPart(i, gone);
    c.globalAlpha = 1;
  }

  paintWent(gone) {
    if (!this.old) return;
    this.context.globalAlpha = 1 - gone;
    for (const block of this.moves.went) {
      const i = this.old.places.get(block.key);
      if (i !== undefined) this.box(this.old.parts[i], this.old.edges[i] - this.left, this.old.edges[i + 1] - this.old.edges[i]);
    }
    this.context.globalAlpha = 1;
  }

  /** Parts whose way leads through the window, though their new place lies outside of it. */
  paintComing(first, last, gone) {
    for (const { block } of this.moves.slid) {
      const i = this.places.get(block.key);
      if (i !== undefined && (i < first || i > last)) this.paintPart(i, gone);
    }
  }

  paintPart(i, gone) {
    const { x, width } = this.boxOf(i, gone);
    const part = this.parts[i];
    const fresh = this.old && part.block && part.block.type !== FREE && !this.old.places.has(part.key);
    if (fresh) this.context.globalAlpha = gone;
    this.box(part, x, width);
    if (fresh) this.context.globalAlpha = 1;
  }
}
