// The start: the module out of the page, its digest, the legend, the first list.

const LEGEND = [
  ["HEADER", null, "header"], ["MASTER_LIVE", null, "live master, arrow to its block’s data"], ["MASTER_FREE", null, "free one, chained"],
  ["RELOCATABLE", null, "h: relocatable"], ["FIXED", "fixed", "p: fixed"], ["PAGE", "page", "n: page"], ["PAGE", "dirty", "dirty page"],
  ["PAGE", "lock", "locked page"], ["FREE", "free", "f: free"],
];

function legend(picture) {
  byId("legend").replaceChildren(...LEGEND.map(([colour, pattern, words]) => {
    const swatch = element("canvas", { width: 18, height: 12 }), c = swatch.getContext("2d");
    c.fillStyle = DATA.palette[colour];
    c.fillRect(0, 0, 18, 12);
    if (pattern === "lock") { c.strokeStyle = DATA.palette.INK; c.lineWidth = 2.4; c.strokeRect(2.6, 2.6, 12.8, 6.8); }
    else if (pattern) { c.fillStyle = picture.pattern(pattern); c.fillRect(0, 0, 18, 12); }
    return element("li", {}, swatch, words);
  }), element("li", {}, "bracket: bay"), element("li", {}, "orange: slid in the last step"));
}

async function sayDigest(bytes) {
  try {
    const digest = new Uint8Array(await crypto.subtle.digest("SHA-256", bytes));
    const found = Array.from(digest, (byte) => PAIRS[byte]).join("").toLowerCase();
    if (found === DATA.digest) setText("digest-told", "has this digest: the browser has just computed it", "good");
    else setText("digest-told", `HAS ANOTHER DIGEST: ${found}`, "bad");
  } catch {
    setText("digest-told", "this browser does not compute digests for a page on a disk");
  }
}

async function start() {
  const bytes = Uint8Array.from(atob(DATA.module), (letter) => letter.charCodeAt(0));
  sayDigest(bytes);
  const app = new App(await Library.from(bytes), await Library.from(bytes));
  app.player.openList();
  app.goTo(1); // behind initialize: before it there is no zone to be seen
  document.documentElement.dataset.ready = "yes";
}

start().catch((fault) => {
  byId("message").hidden = false;
  byId("message").className = "bad";
  const none = "This browser has no WebAssembly, without which the proved library cannot run here.";
  byId("message").firstElementChild.textContent = typeof WebAssembly === "undefined" ? none : `The page cannot start: ${fault.message}`;
});
