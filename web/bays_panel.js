// The bays side by side: scatter and sum, the need that is asked for, and why it is reached or not.

const MOST_BAYS = 40; // rows of the table
const MOST_HOLES = 30; // drawn one by one
const MEASURE_WIDTH = 160; // pixels, about: what does not fit is not written

class BaysPanel {
  constructor(app) {
    this.app = app;
    this.kind = "relocatable";
    this.name = null; // the name of a page that a call of the list asks for
    const typed = () => { this.name = null; setText("asked", ""); this.paint(); };
    for (const id of ["fit-c", "fit-handle"]) byId(id).addEventListener("input", typed);
    for (const radio of document.querySelectorAll("input[name=kind]")) radio.addEventListener("change", () => { this.kind = radio.value; typed(); });
    byId("fit-form").addEventListener("submit", (event) => event.preventDefault());
  }

  /** Takes over what the last call asked for. */
  ask(want) {
    this.kind = want.kind;
    this.name = want.name ?? null;
    byId("fit-c").value = String(want.c);
    document.querySelector(`input[name=kind][value=${want.kind}]`).checked = true;
    if (want.kind === "resize") byId("fit-handle").value = String(want.handle);
  }

  paint() {
    const zone = this.app.zone;
    for (const id of ["needs", "bays"]) byId(id).hidden = !zone.wellFormed;
    const blank = (why) => {
      this.app.picture.ask(null);
      byId("needs").tBodies[0].replaceChildren();
      byId("bays").tBodies[0].replaceChildren();
      setText("verdict", why, "");
      setText("bays-sum", "");
      setText("bays-more", "");
    };
    if (zone.fresh) return blank("There is no zone yet, so there are no bays. Every call but initialize and check is refused with 1.");
    if (!zone.wellFormed) return blank("There is no well-formed zone, so there are no bays. Every call but initialize and check is refused with 1.");
    let c, handle;
    try {
      c = decimal(byId("fit-c").value, "c");
      handle = this.kind === "resize" ? decimal(byId("fit-handle").value, "the handle") : 0;
    } catch (fault) {
      byId("needs").tBodies[0].replaceChildren();
      setText("verdict", sentence(fault.message), "no");
      this.table(zone, null);
      return;
    }
    const fit = this.needs(zone, c, handle);
    this.table(zone, fit);
  }

  /** A line for each kind: what it needs, and what the library answers on a copy. The one that is asked for is looked at bay by bay. */
  needs(zone, c, handle) {
    const wants = [{ kind: "relocatable", c }, { kind: "fixed", c }, { kind: "page", c, name: this.name ?? freeName(zone) }];
    if (this.kind === "resize") wants.push({ kind: "resize", c, handle });
    let asked = null;
    byId("needs").tBodies[0].replaceChildren(...wants.map((want) => {
      const chosen = want.kind === this.kind;
      const tried = triedOf(this.app.library, zone, want);
      const fit = chosen ? fitOf(zone, want) : null;
      if (chosen) asked = { ...fit, tried };
      const name = want.kind === "resize" ? `resize of ${want.handle}` : want.kind;
      const row = element("tr", { class: chosen ? "chosen" : "" }, element("td", {}, name), element("td", { class: "number" }, this.needWords(want, zone)),
        element("td", { class: tried.number === 0 ? "good" : "bad" }, triedWords(want, tried)));
      return row;
    }));
    this.verdict(asked);
    return asked;
  }

  needWords(want, zone) {
    if (want.c > NEEDS[want.kind].limit) return `at most ${grouped(NEEDS[want.kind].limit)}`;
    if (want.kind !== "resize") return grouped(NEEDS[want.kind].of(want.c));
    const block = zone.blocks.find((other) => other.handle === want.handle);
    const grows = block ? Math.max(0, up4(want.c) - block.dataSize) : 0;
    return `${grouped(grows)} here, ${grouped(NEEDS.resize.of(want.c))} elsewhere`;
  }

  verdict(fit) {
    const words = [...fit.said];
    if (fit.number === 5) words.push("So it is refused with 5.");
    if (fit.number !== null && fit.number !== fit.tried.number) words.push(`The page’s words and the library’s answer differ: the library answers ${fit.tried.number}, and that is what holds.`);
    if (fit.number === null && fit.tried.number === 0) words.push(`The library, on a copy, dropped page ${named(fit.tried.gone, String)}, and it fits.`);
    if (fit.number === null && fit.tried.number !== 0) words.push(`The library, on a copy, answers ${fit.tried.number}.`);
    setText("verdict", words.join(" "), fit.tried.number === 0 ? "yes" : "no");
  }

  table(zone, fit) {
    this.app.picture.ask(fit);
    const differ = zone.sumsDiffer ? " These are not what the blocks add up to!" : "";
    setText("bays-sum", `nafelode_sum: ${grouped(zone.total)} bytes free in all, the largest sum ${grouped(zone.largest)}.${differ}`, zone.sumsDiffer ? "bad" : "");
    const most = Math.max(zone.largest, fit ? largestOf(fit.bays, (bay) => Math.min(bay.need, 2 * Math.max(zone.largest, 1))) : 0, 1);
    const listed = this.listed(zone, fit);
    byId("bays").tBodies[0].replaceChildren(...listed.map((bay) => this.row(bay, fit?.bays[bay.index], fit, most)));
    const more = zone.bays.length - listed.length;
    setText("bays-more", more > 0 ? `${counted(more, "more bay")}: the ${MOST_BAYS} with the largest sums are listed, and the one where it goes.` : "");
  }

  /** The bays with the largest sums, in address order. */
  listed(zone, fit) {
    if (zone.bays.length <= MOST_BAYS) return zone.bays;
    const first = [...zone.bays].sort((a, b) => b.sum - a.sum).slice(0, MOST_BAYS);
    if (fit && fit.chosen >= 0 && !first.some((bay) => bay.index === fit.chosen)) first[first.length - 1] = zone.bays[fit.chosen];
    return first.sort((a, b) => a.index - b.index);
  }

  row(bay, found, fit, most) {
    const goes = fit && fit.chosen === bay.index && fit.tried.number === 0;
    const cell = (content, kind = "") => element("td", { class: kind }, content);
    return element("tr", { class: goes ? "goes" : "" }, cell(String(bay.index), "number"), cell(`${grouped(bay.start)} to ${grouped(bay.end)}`, "place"),
      cell(this.measure(bay, found, most)), cell(grouped(bay.largest), "number"), cell(element("b", {}, grouped(bay.sum)), "number"), cell(found ? this.reachWords(found, goes) : ""));
  }

  reachWords({ sum, need, reaches, bay, own }, goes) {
    const where = `${own ? "its own bay: " : ""}`;
    const less = sum < bay.sum ? ` (${grouped(bay.sum)} less ${N.ADDED_BYTES} for masters)` : "";
    if (need === 0) return `${where}yes: it does not grow`;
    if (!reaches) return `${where}no: ${grouped(sum)}${less} is below ${grouped(need)}`;
    const although = bay.largest < need ? `, although the largest hole is ${grouped(bay.largest)}` : "";
    return `${where}yes: ${grouped(sum)}${less} reaches ${grouped(need)}${although}${goes ? "; it goes here" : ""}`;
  }

  /** Free blocks one beside the other, their sum below, and a line where the need ends. */
  measure(bay, found, most) {
    const share = (bytes) => `${(100 * Math.min(bytes, most)) / most}%`;
    const hole = (size, words = grouped(size)) => element("div", { class: "hole", style: `width: ${share(size)}` }, element("span", {}, (size / most) * MEASURE_WIDTH > 7 * words.length ? words : ""));
    const few = bay.free.length <= MOST_HOLES;
    const holes = few ? bay.free.map((block) => hole(block.size)) : [hole(bay.largest), hole(bay.sum - bay.largest, `${grouped(bay.free.length - 1)} more`)];
    const taken = found && found.sum < bay.sum ? bay.sum - Math.max(found.sum, 0) : 0;
    const masters = taken ? element("div", { class: "taken", style: `width: ${share(taken)}`, title: `${N.ADDED_BYTES} bytes for eight masters` }) : null;
    const sum = [masters, bay.sum > taken ? hole(bay.sum - taken) : null];
    return element("div", { class: "measure" }, element("div", { class: "scatter" }, ...holes), element("div", { class: "sum" }, ...sum),
      found ? element("div", { class: "need", style: `left: calc(${share(Math.min(found.need + taken, most))} - 1px)` }) : null);
  }
}
