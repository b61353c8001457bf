// The list at hand: each step with its answer, those to come, and of the one that is marked all that was told.

class StepsPanel {
  constructor(app) {
    this.app = app;
    this.rows = new Rows(byId("steps"), 22, { row: (i) => this.row(i), marked: () => this.detail(), entered: (i) => app.attempt(() => app.goTo(i + 1)) });
  }

  paint() {
    const { timeline } = this.app;
    if (!timeline.at) this.rows.scrollTo(0);
    this.rows.show(timeline.steps.length, timeline.at - 1);
    const { count, differ } = timeline.compared;
    const said = !count ? "" : differ ? `${grouped(differ)} of ${grouped(count)} DIFFER` : `${grouped(count)} as expected`;
    setText("compared", timeline.left ? "no longer compared" : said, differ ? "bad" : "");
    this.detail();
  }

  row(i) {
    const { timeline } = this.app;
    const step = timeline.steps[i], done = i < timeline.at;
    const words = wordsOf(step), answer = done ? answerWords(step, step.told) : "";
    const refused = done && step.told.answer && step.told.answer[0] !== 0;
    const mark = done && step.differs.length ? " ≠" : "";
    const title = `${step.note ? `${step.note}\n` : ""}${words.slice(0, 400)}${answer ? ` → ${answer.slice(0, 400)}` : ""}`;
    const told = done ? element("span", { class: refused ? "bad" : "good" }, ` → ${short(answer).replace(/^0 done, /, "0, ")}`) : "";
    return element("div", { class: !done ? "coming" : i === timeline.at - 1 ? "at" : "", role: "option", title },
      element("span", { class: "n" }, String(i + 1)), shownWords(step), told, mark ? element("b", { class: "bad" }, mark) : "");
  }

  /** All that was told of the step that is marked, as a file of vectors has it. */
  detail() {
    const { timeline } = this.app;
    const i = this.rows.mark, step = timeline.steps[i], place = byId("step-detail");
    if (!step) {
      const coming = timeline.steps.length ? `${counted(timeline.steps.length, "step")} to come.` : "No call yet.";
      return place.replaceChildren(element("span", { class: "faint" }, coming));
    }
    const lines = [element("div", {}, element("code", {}, `${step.own ? "your own: " : ""}${cut(wordsOf(step))}`))];
    if (i < timeline.at) {
      for (const line of toldLines(step, step.told)) lines.push(element("div", {}, element("code", {}, cut(line))));
      const number = step.told.answer ? step.told.answer[0] : 0;
      if (number) lines.push(element("div", { class: "bad" }, `${number}: ${DATA.causes[number]}`));
      lines.push(element("div", { class: "faint" }, step.same ? "No byte of the buffer changed." : "Bytes of the buffer changed."));
      for (const difference of step.differs) lines.push(element("div", { class: "bad" }, `DIFFERS: ${cut(difference)}`));
      if (step.compared && !step.differs.length) lines.push(element("div", { class: "good" }, `As ${timeline.file} expects it.`));
      if (step.name === "census" && !number) lines.push(this.strata(step));
    }
    place.replaceChildren(...lines);
  }

  strata(step) {
    const lent = step.args[0];
    const limits = Array.from({ length: N.STRATA }, (_, i) => (lent.length ? big(lent, N.LIMIT_SIZE * i, N.LIMIT_SIZE) : 2 ** i));
    const said = [];
    step.told.answer.slice(1).forEach((count, i) => {
      if (!count) return;
      const to = i + 1 < N.STRATA ? `to ${grouped(WORD * (limits[i + 1] - 1))} bytes` : "bytes or more";
      said.push(`${grouped(WORD * limits[i])} ${to}: ${count}`);
    });
    return element("div", {}, said.join("; ") || "No free block in any stratum.");
  }
}

function short(text) {
  return text.length > 90 ? text.slice(0, 90) + "…" : text;
}

/** A line as it may be shown whole: a long one says how long it is. */
function cut(text) {
  return text.length > 1200 ? `${text.slice(0, 1200)}… (${grouped(text.length)} characters)` : text;
}
