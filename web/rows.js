// Elements and long lists. What is shown is always a text node: nothing that comes from a file is ever read as markup.

function element(tag, properties = {}, ...children) {
  const made = document.createElement(tag);
  for (const [name, value] of Object.entries(properties)) {
    if (name === "class") made.className = value;
    else if (name in made && name !== "list") made[name] = value;
    else made.setAttribute(name, value);
  }
  made.append(...children.filter((child) => child !== null && child !== undefined));
  return made;
}

const byId = (id) => document.getElementById(id);

function setText(id, text, className) {
  const place = byId(id);
  if (place.textContent !== text) place.textContent = text;
  if (className !== undefined) place.className = className;
}

/** A list of any length in a box that scrolls: only the rows in sight are there. */
class Rows {
  constructor(box, rowHigh, { row, marked = null, entered = null }) {
    Object.assign(this, { box, rowHigh, row, marked, entered });
    this.count = 0;
    this.mark = -1; // the row that keys go from
    this.top = 0; // how far it is scrolled, and how high the box is: kept, since to ask the browser costs a layout each time
    this.high = 0;
    this.all = element("div", { class: "all" });
    box.append(this.all);
    box.addEventListener("scroll", () => { this.top = box.scrollTop; this.paint(); });
    box.addEventListener("keydown", (event) => this.key(event));
    this.all.addEventListener("click", (event) => {
      const found = event.target.closest(".row");
      if (!found || String(getSelection())) return; // text is being selected
      this.setMark(Number(found.dataset.i));
      this.entered?.(this.mark);
    });
    new ResizeObserver(() => {
      const first = !this.high;
      this.high = box.clientHeight;
      if (first && this.mark >= 0) this.reveal(this.mark);
      this.paint();
    }).observe(box);
  }

  /** So many rows, one of them marked and in sight. */
  show(count, mark = this.mark) {
    this.count = count;
    this.mark = mark < count ? mark : -1;
    const height = `${count * this.rowHigh}px`;
    if (this.all.style.height !== height) this.all.style.height = height;
    this.top = Math.max(0, Math.min(this.top, count * this.rowHigh - this.high));
    if (this.mark >= 0) this.reveal(this.mark);
    this.paint(true);
  }

  paint(fresh = false) {
    const first = Math.max(0, Math.floor(this.top / this.rowHigh) - 4);
    const last = Math.min(this.count, Math.ceil((this.top + this.high) / this.rowHigh) + 4);
    if (!fresh && first === this.first && last === this.last) return;
    this.first = first;
    this.last = last;
    const rows = [];
    for (let i = first; i < last; i++) {
      const made = this.row(i);
      made.classList.add("row");
      if (this.entered) { made.id = `${this.box.id}-${i}`; made.setAttribute("aria-selected", String(i === this.mark)); }
      if (i === this.mark) made.classList.add("marked");
      made.dataset.i = String(i);
      made.style.top = `${i * this.rowHigh}px`;
      rows.push(made);
    }
    this.all.replaceChildren(...rows);
    if (this.entered && this.mark >= 0) this.box.setAttribute("aria-activedescendant", `${this.box.id}-${this.mark}`);
  }

  reveal(i) {
    if (!this.high) return; // not laid out yet
    const top = i * this.rowHigh;
    if (top < this.top) this.scrollTo(top - this.rowHigh);
    else if (top + 2 * this.rowHigh > this.top + this.high) this.scrollTo(top + 2 * this.rowHigh - this.high);
  }

  scrollTo(top) {
    this.top = Math.max(0, Math.min(top, this.count * this.rowHigh - this.high));
    this.box.scrollTop = this.top;
  }

  setMark(i) {
    this.mark = i;
    this.reveal(i);
    this.paint(true);
    this.marked?.(i);
  }

  key(event) {
    const page = Math.max(1, Math.floor(this.high / this.rowHigh) - 1);
    const by = { ArrowDown: 1, ArrowUp: -1, PageDown: page, PageUp: -page }[event.key];
    if (event.key === "Enter" && this.mark >= 0) { this.entered?.(this.mark); event.preventDefault(); }
    if (by === undefined || this.count === 0) return;
    event.preventDefault();
    if (!this.marked && !this.entered) { this.box.scrollTop += by * this.rowHigh; return; }
    this.setMark(Math.max(0, Math.min(this.count - 1, this.mark + by)));
  }
}
