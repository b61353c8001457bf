// A form for each call: a button with its name, a field for each argument.

const GROUPS = ["Zone", "Blocks", "Bytes", "Pages", "Tell"];
const FIRST_VALUES = {
  "initialize.length": "1024", "initialize.masters": "8", "allocate_relocatable.c": "8", "allocate_fixed.c": "8", "resize.handle": "16", "resize.c": "20",
  "free_handle.handle": "16", "create_page.name": "1", "create_page.c": "8", "write.src": "0001397A",
};
const HINTS = { out: "its length", src: "hexadecimal", limits: "none, or 19 numbers", count: "all" };

class CallForms {
  constructor(app, place) {
    this.app = app;
    const made = [element("h3", {}, "A new buffer, and bytes by no call"), this.bufferForm(), this.setForm()];
    for (const group of GROUPS) {
      made.push(element("h3", {}, group));
      for (const [name, call] of Object.entries(CALLS)) if (call.group === group) made.push(this.form(name, call));
    }
    place.append(...made);
  }

  bufferForm() {
    const length = this.field("buffer.length", "length", "1024"), byte = this.field("buffer.byte", "byte", "0");
    return this.formOf("buffer", "Starts a new list: a buffer of so many bytes, all of that value", [length, byte], () => {
      const origin = new Uint8Array(decimal(length.input.value, "length", MOST_BUFFER)).fill(decimal(byte.input.value || "0", "each byte", 255));
      this.app.open({ name: "own_calls", origin });
    });
  }

  setForm() {
    const offset = this.field("set.offset", "offset", "0"), bytes = this.field("set.bytes", "bytes", "", "hexadecimal");
    return this.formOf("set", "Puts bytes into the buffer by no call, as a fault would", [offset, bytes], () => {
      const step = { kind: "set", at: decimal(offset.input.value, "offset"), bytes: unhex(bytes.input.value.replace(/\s/g, ""), "bytes") };
      if (step.at + step.bytes.length > this.app.library.bytes.length) throw new Fault("these bytes reach past the buffer");
      this.app.ownStep(step);
    });
  }

  form(name, call) {
    const fields = call.args.flatMap((arg) => {
      const [what, kind] = arg.split(":");
      if (kind === "block") return [this.choice(`${name}.by`), this.field(`${name}.block`, "", "16")];
      return [this.field(`${name}.${what}`, what, FIRST_VALUES[`${name}.${what}`] ?? (what === "offset" ? "0" : ""), HINTS[what] ?? "")];
    });
    return this.formOf(name, DATA.calls[name] ?? "", fields, () => this.app.ownStep(this.stepFrom(name, fields)));
  }

  field(id, label, value, hint = "") {
    const wide = /src|limits|bytes$/.test(id) ? "wide" : "";
    const input = element("input", { id: `arg-${id}`, value, placeholder: hint, autocomplete: "off", spellcheck: false, class: wide });
    if (!label) input.setAttribute("aria-label", "the block’s number");
    return { input, shown: element("label", {}, label ? `${label} ` : "", input) };
  }

  choice(id) {
    const input = element("select", { id: `arg-${id}`, "aria-label": "the block is named by" }, ...Object.keys(BY).map((by) => element("option", { value: by }, by)));
    return { input, shown: input };
  }

  formOf(name, title, fields, submit) {
    const form = element("form", { id: `call-${name}` }, element("button", { type: "submit", title }, name), ...fields.map((field) => field.shown));
    form.addEventListener("submit", (event) => {
      event.preventDefault();
      this.app.attempt(submit);
    });
    return form;
  }

  /** The call of a form, with what was left empty filled in: a whole block's bytes, a buffer that is long enough. */
  stepFrom(name, fields) {
    const values = fields.map((field) => field.input.value.trim());
    const args = [];
    let at = 0;
    for (const [what, kind] of CALLS[name].args.map((arg) => arg.split(":"))) {
      if (kind === "block") { args.push({ by: values[at], block: decimal(values[at + 1], `the block’s ${values[at]}`) }); at += 2; continue; }
      args.push(this.argument(name, what, kind, values[at], args, values));
      at++;
    }
    return { kind: "call", name, args };
  }

  argument(name, what, kind, text, args, values) {
    if (what === "count" && text === "") return this.wholeCount(name, args, values);
    if (what === "walker" && text === "") return this.app.walker;
    if (kind === "number") return decimal(text, what);
    if (kind === "limits") return limitsFrom(text);
    if (what === "out") return new Uint8Array(text === "" ? this.outLength(name, args) : decimal(text, "out’s length", MOST_BUFFER));
    return unhex(text.replace(/\s/g, ""), what);
  }

  wholeCount(name, args, values) {
    if (name === "write") return unhex(values[values.length - 1].replace(/\s/g, ""), "src").length;
    const [block, offset] = args;
    const size = this.app.library.size(block.by, block.block);
    return Math.max(0, size.values[0] - offset);
  }

  outLength(name, args) {
    return name === "roster" ? N.RECORD_SIZE * this.app.library.check().live : Math.min(args[2], MOST_BUFFER);
  }
}

/** A mill's limits as they are typed: numbers of words with something between them, or bytes in hexadecimal. */
function limitsFrom(text) {
  if (text === "" || text === "-") return new Uint8Array(0);
  const numbers = text.split(/[\s,;]+/).filter(Boolean);
  if (numbers.length > 1) return bigBytes(numbers.map((number) => decimal(number, "a limit")));
  return unhex(text, "limits");
}
