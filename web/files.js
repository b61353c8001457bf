// Files: an image or a file of vectors is opened, by a dialog or by dropping it; image, calls and records are saved.

class Files {
  constructor(app) {
    this.app = app;
    byId("open").addEventListener("click", () => byId("file").click());
    byId("file").addEventListener("change", (event) => { this.open(event.target.files[0]); event.target.value = ""; });
    byId("save-image").addEventListener("click", () => this.save(`${this.stem()}.zone`, app.library.bytes.slice(), `${counted(app.library.bytes.length, "byte")} of the buffer`));
    byId("save-calls").addEventListener("click", () => this.saveCalls());
    byId("save-records").addEventListener("click", () => this.saveRecords());
    addEventListener("dragover", (event) => { event.preventDefault(); byId("drop").hidden = false; });
    addEventListener("dragleave", (event) => { if (!event.relatedTarget) byId("drop").hidden = true; });
    addEventListener("drop", (event) => { event.preventDefault(); byId("drop").hidden = true; this.open(event.dataTransfer.files[0]); });
  }

  stem() {
    return this.app.timeline.name.replace(/[^A-Za-z0-9_.-]/g, "_").slice(0, 60) || "zone";
  }

  async open(file) {
    if (!file) return;
    let bytes;
    try {
      if (file.size > MOST_FILE) throw new Fault(`${file.name} has ${grouped(file.size)} bytes, and this page opens at most ${grouped(MOST_FILE)}.`);
      bytes = new Uint8Array(await file.arrayBuffer());
    } catch (fault) {
      return this.app.say(fault instanceof Fault ? fault.message : `${file.name} cannot be read.`, true);
    }
    this.app.attempt(() => this.take(file.name, bytes));
  }

  /** By its first bytes a file is one of vectors, or else an image. */
  take(name, bytes) {
    if (bytes.length === 0) throw new Fault(`${name} is empty.`);
    if (startsWith(bytes, "nafelode-vectors") || /\.(calls|txt)$/i.test(name)) return this.takeVectors(name, bytes);
    if (bytes.length > MOST_BUFFER) throw new Fault(`${name} has ${grouped(bytes.length)} bytes: an image has at most ${grouped(MOST_BUFFER)} here, and a zone at most ${grouped(N.LONGEST_ZONE)}.`);
    this.app.player.leave();
    this.app.open({ name: name.replace(/\.[^.]*$/, ""), origin: bytes, image: true });
    const zone = this.app.zone;
    if (zone.wellFormed) this.app.say(`${name}: ${counted(bytes.length, "byte")}, a well-formed zone of ${grouped(zone.length)}.`);
    else this.app.say(`${name}: ${counted(bytes.length, "byte")}, and nafelode_check says no: this is not a well-formed zone. What is shown below are raw bytes, read by the page.`, true);
  }

  takeVectors(name, bytes) {
    try {
      const lists = this.app.player.add(name, new TextDecoder().decode(bytes));
      this.app.say(`${name}: ${counted(lists.length, "list")} of calls.`);
    } catch (fault) {
      if (!(fault instanceof Fault)) throw fault;
      throw new Fault(`${name} is no file of vectors that can be played: ${fault.message}.`);
    }
  }

  saveCalls() {
    const { timeline } = this.app;
    const text = callsFile(timeline.name, timeline.origin, timeline.done);
    this.save(`${this.stem()}.calls`, new TextEncoder().encode(text), `${counted(timeline.at, "step")} as a .calls file of vectors`);
  }

  saveRecords() {
    const { timeline } = this.app;
    const { bytes, said } = recordFile(timeline.origin, timeline.done);
    this.save(`${this.stem()}.records`, bytes, said);
  }

  save(name, bytes, said) {
    const url = URL.createObjectURL(new Blob([bytes], { type: "application/octet-stream" }));
    element("a", { href: url, download: name }).click();
    setTimeout(() => URL.revokeObjectURL(url), 10000);
    this.app.say(`${name}: ${said}`);
  }
}

function startsWith(bytes, text) {
  return Array.from(text).every((letter, i) => bytes[i] === letter.charCodeAt(0));
}
