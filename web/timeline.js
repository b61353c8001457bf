// The list at hand: steps that were done, steps to come, and the buffer as it was after each.

const MOST_KEPT = 64 * 1024 * 1024; // bytes of buffers that are kept; beyond them calls are made again

class Timeline {
  constructor(library, { name, file = "", origin, steps = [], image = false }) {
    this.library = library;
    this.name = name;
    this.file = file; // the file of vectors that it came from
    this.origin = origin;
    this.image = image; // whether somebody opened it as an image of a zone
    this.steps = steps.map((step) => ({ ...step, told: null, differs: null }));
    this.at = 0; // so many steps are done
    this.firstOwn = Infinity; // where the first call of one's own stands: behind it nothing is compared
    this.kept = new Map([[0, origin]]);
    this.keptBytes = origin.length;
    library.lend(origin);
  }

  get done() {
    return this.steps.slice(0, this.at);
  }

  get last() {
    return this.at ? this.steps[this.at - 1] : null;
  }

  /** Whether a call of one's own came between those of the file. */
  get left() {
    return this.file !== "" && this.firstOwn < this.at;
  }

  /** Whether the buffer is still as it was handed out, for a zone to be made in it. */
  get fresh() {
    return !this.image && this.done.every((step) => step.same);
  }

  get hasNext() {
    return this.at < this.steps.length;
  }

  /** Makes the next step. */
  next() {
    if (!this.hasNext) return false;
    this.perform(this.steps[this.at]);
    this.at++;
    this.keep();
    return true;
  }

  back() {
    return this.at > 0 && this.goTo(this.at - 1);
  }

  /** To the buffer after so many steps: from the nearest one that is kept, calls are made again. */
  goTo(count) {
    const wanted = Math.max(0, Math.min(count, this.steps.length));
    let from = wanted;
    while (!this.kept.has(from)) from--;
    if (from < this.at && wanted >= this.at) from = this.at;
    else { this.library.lend(this.kept.get(from)); this.at = from; }
    while (this.at < wanted) this.next();
    return true;
  }

  /** A call of one's own: after the steps that are done, before those of the file that are to come. */
  own(step) {
    const coming = this.steps.slice(this.at).filter((other) => !other.own);
    this.steps = [...this.done, { note: "", ...step, own: true, expected: null, told: null, differs: null }, ...coming];
    for (const index of [...this.kept.keys()]) if (index > this.at) this.forget(index);
    try {
      this.next();
    } catch (fault) {
      this.steps.splice(this.at, 1);
      throw fault;
    } finally {
      this.firstOwn = this.steps.findIndex((other) => other.own);
      if (this.firstOwn < 0) this.firstOwn = Infinity;
    }
  }

  perform(step) {
    const before = this.library.bytes.slice();
    if (step.kind === "set") {
      if (step.at + step.bytes.length > before.length) throw new Fault("set reaches past the buffer");
      this.library.bytes.set(step.bytes, step.at);
      step.told = {};
    } else {
      step.told = make(this.library, step);
    }
    const after = this.library.bytes;
    step.same = alike(before, after);
    step.compared = this.firstOwn >= this.at && isCompared(step);
    step.differs = step.compared ? differences(step, step.told, before, after) : [];
  }

  /** Keeps the buffer after the step that was just made; equal ones are kept once. */
  keep() {
    if (this.kept.has(this.at)) return;
    const before = this.kept.get(this.at - 1);
    if (this.last.same && before) { this.kept.set(this.at, before); return; }
    this.kept.set(this.at, this.library.bytes.slice());
    this.keptBytes += this.origin.length;
    for (const index of this.kept.keys()) {
      if (this.keptBytes <= MOST_KEPT) break;
      if (index !== 0 && index !== this.at) this.forget(index);
    }
  }

  forget(index) {
    const gone = this.kept.get(index);
    this.kept.delete(index);
    for (const other of this.kept.values()) if (other === gone) return;
    this.keptBytes -= gone.length;
  }

  get compared() {
    const steps = this.done.filter((step) => step.compared);
    return { count: steps.length, differ: steps.filter((step) => step.differs.length).length };
  }
}
