// The player: which list is at hand, step by step, forth and back; and whole files compared with what they expect.

class Player {
  constructor(app) {
    this.app = app;
    this.timer = 0;
    this.files = DATA.files.map((file) => ({ ...file, lists: null }));
    byId("file-choice").addEventListener("change", () => app.attempt(() => { this.fillLists(); this.openList(); }));
    byId("list-choice").addEventListener("change", () => app.attempt(() => this.openList()));
    const press = (id, work) => byId(id).addEventListener("click", () => app.attempt(work));
    press("to-start", () => { this.pause(); app.goTo(0); });
    press("back", () => { this.pause(); this.back(); });
    press("step", () => { this.pause(); this.step(); });
    press("play", () => this.toggle());
    press("to-end", () => { this.pause(); app.goTo(app.timeline.steps.length); });
    press("compare", () => this.compareFile());
    this.fillFiles();
  }

  // -- files and lists

  fillFiles() {
    const choice = byId("file-choice"), now = choice.value;
    choice.replaceChildren(...this.files.map((file, i) => element("option", { value: String(i) }, file.title)), element("option", { value: "", hidden: true }, "your own calls, or an image"));
    choice.value = now || "0";
    this.fillLists();
  }

  get file() {
    const i = byId("file-choice").value;
    return i === "" ? null : this.files[Number(i)];
  }

  listsOf(file) {
    file.lists ??= readVectors(file.text).filter((list) => !file.only || file.only.includes(list.name));
    return file.lists;
  }

  fillLists() {
    const lists = this.file ? this.listsOf(this.file) : [];
    byId("list-choice").replaceChildren(...lists.map((list, i) => element("option", { value: String(i) }, list.name)));
    byId("list-choice").disabled = lists.length < 2;
    byId("compare").disabled = !this.file;
  }

  openList() {
    const file = this.file, list = this.listsOf(file)[Number(byId("list-choice").value || 0)];
    this.app.open({ name: list.name, file: file.name, origin: list.origin, steps: list.steps, note: list.note });
  }

  /** A file of vectors from the disk. */
  add(name, text) {
    const lists = readVectors(text);
    this.files.push({ title: `${name} (yours)`, name, text, lists });
    this.fillFiles();
    byId("file-choice").value = String(this.files.length - 1);
    this.fillLists();
    this.openList();
    return lists;
  }

  /** No file is at hand: an image, or a new buffer. */
  leave() {
    byId("file-choice").value = "";
    this.fillLists();
  }

  // -- steps

  step() {
    if (!this.app.timeline.hasNext) return;
    this.app.forward(this.timer ? Math.min(SLIDE_MILLISECONDS, 0.6 * Number(byId("pace").value)) : SLIDE_MILLISECONDS);
  }

  back() {
    if (this.app.timeline.at) this.app.goTo(this.app.timeline.at - 1, SLIDE_MILLISECONDS);
  }

  toggle() {
    if (this.timer) return this.pause();
    if (!this.app.timeline.hasNext) this.app.goTo(0);
    this.timer = 1;
    this.paint();
    this.tick();
  }

  tick() {
    if (!this.timer) return;
    this.app.attempt(() => this.step());
    if (!this.app.timeline.hasNext) return this.pause();
    this.timer = setTimeout(() => this.tick(), Number(byId("pace").value));
  }

  pause() {
    clearTimeout(this.timer);
    this.timer = 0;
    this.paint();
  }

  paint() {
    const { timeline } = this.app;
    if (!timeline) return;
    byId("to-start").disabled = byId("back").disabled = timeline.at === 0;
    byId("step").disabled = byId("to-end").disabled = !timeline.hasNext;
    byId("play").disabled = timeline.steps.length === 0;
    byId("play").setAttribute("aria-pressed", String(Boolean(this.timer)));
    byId("play").firstChild.textContent = this.timer ? "Pause " : "Play ";
    setText("where", timeline.steps.length === 0 ? "no step yet" : `${timeline.name}: step ${timeline.at} of ${timeline.steps.length}`);
  }

  // -- comparing

  /** Every list of the file from its start, on a library of its own; what differs is told. */
  async compareFile() {
    const file = this.file, lists = this.listsOf(file);
    byId("compare").disabled = true;
    let calls = 0, compared = 0;
    const found = [];
    let breath = performance.now();
    try {
      for (const list of lists) {
        const timeline = new Timeline(this.app.second, { ...list, file: file.name });
        while (timeline.next()) {
          const step = timeline.last;
          if (step.kind === "call") calls++;
          if (step.compared) compared++;
          for (const difference of step.differs) found.push(`${list.name}, line ${step.place}, ${cut(wordsOf(step))}: ${cut(difference)}`);
          if (performance.now() - breath > 60) {
            this.app.say(`${file.name}: ${grouped(calls)} calls …`);
            await new Promise((resolve) => setTimeout(resolve));
            breath = performance.now();
          }
        }
      }
    } finally {
      byId("compare").disabled = false;
    }
    const head = `${file.name}: ${counted(calls, "call")} in ${counted(lists.length, "list")}, ${grouped(compared)} compared`;
    if (!compared) return this.app.say(`${head}: the file has no answers to compare with.`);
    if (!found.length) return this.app.say(`${head}, every answer and every byte as expected.`);
    this.app.say([`${head}, ${counted(found.length, "difference")}:`, ...found.slice(0, 20)].join("\n"), true);
  }
}
