// What is said of a zone, of a block, and of what became of blocks.

const MOST_NAMED = 12; // so many are named, the others counted

function sentence(text) {
  return /[.!?]$/.test(text) ? text : `${text}.`;
}

/** Some of them by name, the rest by number. */
function named(items, words) {
  const more = items.length - MOST_NAMED;
  return items.slice(0, MOST_NAMED).map(words).join(", ") + (more > 0 ? `, and ${grouped(more)} more` : "");
}

function factsWords(zone) {
  if (zone.fresh) return `A buffer of ${counted(zone.bytes.length, "byte")}, with no zone in it yet: initialize makes one.`;
  if (!zone.wellFormed) {
    return `nafelode_check says no: this buffer of ${counted(zone.bytes.length, "byte")} holds no well-formed zone. ` +
      `RAW BYTES, read by the page and not told by the library: ${zone.stopped}.`;
  }
  const count = (type) => zone.blocks.reduce((sum, block) => sum + (block.type === type), 0);
  const buffer = zone.bytes.length > zone.length ? ` in a buffer of ${grouped(zone.bytes.length)}` : "";
  const pages = count(PAGE) ? `${counted(count(PAGE), "page")}, ` : "";
  const chain = zone.chain ? ` (chain from ${zone.chain})` : "";
  return `Zone of ${grouped(zone.length)} bytes${buffer}: ` +
    `${grouped(count(RELOCATABLE))} relocatable, ${grouped(count(FIXED))} fixed, ${pages}${grouped(count(FREE))} free. ` +
    `Masters: ${grouped(zone.live)} live, ${grouped(zone.masters.length - zone.live)} free${chain}. ` +
    `Free bytes: ${grouped(zone.total)}, largest sum ${grouped(zone.largest)}, largest hole ${grouped(largestOf(zone.bays, (bay) => bay.largest))}.`;
}

function slidWords(moves, zone) {
  const said = [];
  const name = (block) => block.name;
  const master = (block) => (block.type === RELOCATABLE ? ` (its master now holds ${grouped(big(zone.bytes, block.handle, N.MASTER_SIZE))})` : "");
  if (moves.slid.length) said.push(`Slid: ${named(moves.slid, ({ block, was }) => `${block.name} from ${grouped(was.offset)} to ${grouped(block.offset)}${master(block)}`)}.`);
  if (moves.came.length) said.push(`Came: ${named(moves.came, name)}.`);
  if (moves.went.length) said.push(`Went: ${named(moves.went, name)}.`);
  if (moves.sized.length) said.push(`Size: ${named(moves.sized, ({ block, was }) => `${block.name} from ${grouped(was.size)} to ${grouped(block.size)}`)}.`);
  return said.join(" ");
}

function ageWords(block) {
  return `age ${block.age}${block.flags ? `, ${block.flags}` : ""}`;
}

function blockWords(block, zone) {
  const words = [`${KIND_NAMES[block.type]}${block.name ? ` ${block.name}` : ""} at ${grouped(block.offset)}`, `size ${grouped(block.size)}`];
  if (block.type !== FREE) words.push(`${counted(block.dataSize, "data byte")} from ${grouped(block.data)}`);
  if (block.type === PAGE) words.push(ageWords(block));
  if (block.bay !== undefined) words.push(`bay ${block.bay}`);
  return `${zone.wellFormed ? "" : "raw, not told by the library: "}${words.join(", ")}`;
}

function pointedWords(part, zone) {
  if (part.block) return blockWords(part.block, zone);
  if (part.kind === "header") return headerWords(zone);
  if (part.kind === "buffer") return `${counted(part.size, "byte")}, with no zone in them yet`;
  if (part.kind === "beyond") return `${counted(part.size, "byte")} from ${grouped(part.start)} on: ${zone.wellFormed ? "beyond L, not the zone’s" : "not walked"}`;
  if (!part.master) return "where masters would be";
  const { at, live, holds } = part.master;
  return live ? `live master ${at} holds ${grouped(holds)}, where its block’s data start` : `free master ${at}; the next free one is ${holds || "none"}`;
}

function headerWords(zone) {
  if (!zone.wellFormed) return "where the header would be";
  return `header, ${N.ZONE_HEADER} bytes: L ${grouped(zone.length)}, first block at ${grouped(zone.first)}, ${counted(zone.masters.length, "master")}, chain from ${zone.chain || "none"}, clock ${zone.clock}`;
}
