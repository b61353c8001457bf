// The page: the library at its heart, the panels around it, keys and messages.

const BACKGROUND_MILLISECONDS = 8; // so long the walker is asked at a time, in the background

// The control that a key presses.
const KEYS = { s: "step", "ctrl y": "step", b: "back", "ctrl z": "back", p: "play", Home: "to-start", End: "to-end", "+": "zoom-in", "-": "zoom-out", 0: "zoom-fit" };

class App {
  constructor(library, second) {
    this.library = library;
    this.second = second; // another instance, for comparing whole files beside what is shown
    this.zone = null;
    this.before = null; // the buffer before the last step
    this.chosen = null;
    this.walker = 0;
    this.picture = new Picture(byId("canvas"), byId("scroller"), byId("spacer"), {
      selected: (part) => { if (part.block) this.select(part.block); },
      pointed: (part) => setText("pointed", part ? pointedWords(part, this.zone) : this.chosen ? blockWords(this.chosen, this.zone) : ""),
    });
    this.steps = new StepsPanel(this);
    this.bays = new BaysPanel(this);
    this.blocks = new BlocksPanel(this);
    this.bytes = new BytesPanel(this);
    this.forms = new CallForms(this, byId("forms"));
    this.player = new Player(this);
    this.filesPanel = new Files(this);
    byId("zoom-in").addEventListener("click", () => this.picture.zoomBy(1.6));
    byId("zoom-out").addEventListener("click", () => this.picture.zoomBy(0.625));
    byId("zoom-fit").addEventListener("click", () => this.picture.fit());
    byId("message-gone").addEventListener("click", () => this.hush());
    addEventListener("keydown", (event) => this.key(event));
    matchMedia("(prefers-color-scheme: dark)").addEventListener("change", () => this.picture.measure());
    legend(this.picture);
  }

  // -- messages

  say(text, bad = false) {
    byId("message").hidden = false;
    byId("message").className = bad ? "bad" : "";
    byId("message").firstElementChild.textContent = text;
  }

  hush() {
    byId("message").hidden = true;
  }

  /** Does something that may turn out to be impossible: then that is said, and nothing else happens. */
  attempt(work) {
    this.hush();
    const failed = (fault) => this.say(fault instanceof Fault ? sentence(fault.message) : `The page itself failed: ${fault.message}`, true);
    try {
      const after = work();
      if (after instanceof Promise) after.catch(failed);
    } catch (fault) {
      failed(fault);
    }
  }

  // -- the list at hand

  open({ name, file = "", origin, steps = [], note = "", image = false }) {
    this.player.pause();
    if (!file) this.player.leave();
    this.timeline = new Timeline(this.library, { name, file, origin, steps, image });
    this.note = note;
    this.chosen = null;
    this.refresh(0);
  }

  forward(sliding) {
    const before = this.zone;
    this.timeline.next();
    this.refresh(sliding, before);
  }

  goTo(count, sliding = 0) {
    this.timeline.goTo(count);
    this.refresh(sliding);
  }

  ownStep(step) {
    const before = this.zone;
    this.player.pause();
    this.timeline.own(step);
    this.refresh(SLIDE_MILLISECONDS, before);
  }

  // -- showing

  /** Asks the library what the zone is now, and shows it. */
  refresh(sliding, before = null) {
    const shown = this.zone;
    const { timeline } = this;
    this.zone = tellZone(this.library);
    if (!this.zone.wellFormed && timeline.fresh) this.zone = noZoneYet(this.zone.bytes);
    this.before = timeline.at ? timeline.kept.get(timeline.at - 1) ?? null : null;
    const last = timeline.last;
    const want = last && wantOf(last, { wellFormed: true });
    if (!before && want && this.before) before = this.library.onCopy(() => tellZone(this.library), this.before);
    if (last?.told.walker !== undefined) this.walker = last.told.walker;
    else if (!last) this.walker = this.zone.wellFormed ? this.zone.first : 0;
    const moves = movesOf(sliding ? shown : before, this.zone);
    this.chosen = this.chosen && this.zone.blocks.find((block) => block.key === this.chosen.key && block.key) || null;
    this.picture.chosen = this.chosen?.key ?? "";
    this.picture.show(this.zone, moves, sliding);
    this.askNext();
    this.now(last, before);
    setText("slid", slidWords(moves, this.zone));
    setText("facts", factsWords(this.zone), this.zone.wellFormed || this.zone.fresh ? "" : "bad");
    setText("pointed", this.chosen ? blockWords(this.chosen, this.zone) : "");
    this.bays.paint();
    this.steps.paint();
    this.blocks.paint();
    this.bytes.paint();
    this.player.paint();
    this.background();
  }

  /** The question what fits is that of the next call of the list, or of the one that was just refused. */
  askNext() {
    const { timeline } = this, last = timeline.last, next = timeline.steps[timeline.at];
    const want = next && wantOf(next, this.zone);
    setText("asked", "");
    if (want) { this.bays.ask(want); setText("asked", "as the next call of the list asks"); }
    else if (last?.told.answer?.[0] && wantOf(last, this.zone)) { this.bays.ask(wantOf(last, this.zone)); setText("asked", "as the call that was refused asked"); }
  }

  now(last, before) {
    const place = byId("now-call"), { steps, file } = this.timeline;
    const note = (text, before) => (text ? element("i", {}, `${before}${text}`) : "");
    if (!last) {
      place.replaceChildren(steps.length ? "At the start: the buffer before the first call." : `A buffer of ${counted(this.zone.bytes.length, "byte")}.`, note(this.note, " "));
      setText("now-why", steps.length ? `Next: ${wordsOf(steps[0]).slice(0, 200)}` : "");
      return;
    }
    const refused = last.told.answer && last.told.answer[0] !== 0;
    const words = wordsOf(last);
    const compared = last.differs.length ? element("span", { class: "bad" }, ` DIFFERS from ${file}: ${short(last.differs[0])}`)
      : last.compared ? element("span", { class: "faint" }, ` as ${file} expects`) : "";
    place.replaceChildren(element("code", {}, words.length > 120 ? words.slice(0, 120) + "…" : words), " → ",
      element("span", { class: `told ${refused ? "bad" : "good"}` }, short(answerWords(last, last.told))), compared, note(last.note, " — "));
    setText("now-why", this.why(last, before));
  }

  /** Why a call for space was answered as it was, by the bays before it; of another refusal its cause. */
  why(last, before) {
    const want = before && wantOf(last, before);
    if (want) {
      const fit = fitOf(before, want);
      const own = fit.bays.find((bay) => bay.own);
      const need = own ? `It needs ${grouped(own.need)} more in its own bay, or ${grouped(fit.need)} in another. ` : `It needs ${grouped(fit.need)} bytes. `;
      const differ = fit.number !== null && fit.number !== last.told.answer[0] ? " The page’s words and the library’s answer differ: the answer is what holds." : "";
      return `${fit.need ? need : ""}${fit.said.join(" ")}${differ}`;
    }
    const number = last.told.answer?.[0];
    return number && DATA.causes[number] !== SHORT_CAUSES[number] ? sentence(DATA.causes[number]) : "";
  }

  select(block) {
    this.chosen = block;
    this.picture.chosen = block.key;
    if (block.key) this.picture.reveal(block.key);
    else this.picture.paintSoon();
    setText("pointed", blockWords(block, this.zone));
    this.blocks.reveal(block);
    this.bytes.reveal(block.offset);
  }

  /** The walker goes on where it was stopped, a little at a time, until it has told every block. */
  background() {
    clearTimeout(this.walking);
    const zone = this.zone;
    if (!zone.wellFormed || zone.walked === zone.blocks.length || zone.odd) return;
    this.walking = setTimeout(() => {
      if (zone !== this.zone) return;
      walkOn(this.library, zone, BACKGROUND_MILLISECONDS);
      this.blocks.told();
      this.background();
    }, 16);
  }

  // -- keys

  key(event) {
    if (event.altKey || event.target.closest("input, select, textarea")) return;
    const control = event.ctrlKey || event.metaKey;
    const name = control ? `ctrl ${event.key.toLowerCase()}` : event.key;
    const inList = event.target.closest(".rows, #scroller");
    if (inList && ["Home", "End"].includes(name)) return;
    const keys = {
      ...Object.fromEntries(Object.entries(KEYS).map(([key, id]) => [key, () => this.press(id)])),
      c: () => byId("fit-c").focus(),
      m: () => byId("forms").querySelector("button").focus(),
    };
    if (!Object.hasOwn(keys, name)) return;
    event.preventDefault();
    keys[name]();
  }

  press(id) {
    byId(id).click();
  }
}
