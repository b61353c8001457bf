// Where the parts of a zone stand on a bar: to scale, but wide enough to be read.

const LEAST = { header: 46, masters: 24, free: 26, fixed: 36, relocatable: 36, page: 36 }; // pixels that are wanted for a label
const MOST_MASTERS_WIDE = 240;
const LEAST_SHARE = 0.6; // so much of the bar may go to least widths
const BEYOND_WIDTH = 84;

/** The bar's parts from left to right; between them there is no byte. */
function partsOf(zone) {
  if (zone.fresh) return [{ kind: "buffer", key: "buffer", start: 0, size: zone.bytes.length, least: 0 }];
  const parts = [{ kind: "header", key: "header", start: 0, size: Math.min(N.ZONE_HEADER, zone.bytes.length), least: LEAST.header }];
  if (zone.first > N.ZONE_HEADER) {
    const least = Math.min(zone.masters.length * LEAST.masters, MOST_MASTERS_WIDE);
    parts.push({ kind: "masters", key: "masters", start: N.ZONE_HEADER, size: zone.first - N.ZONE_HEADER, least });
  }
  for (const block of zone.blocks) {
    const kind = KINDS[block.type];
    parts.push({ kind, key: block.key, start: block.offset, size: block.size, least: LEAST[kind], block });
  }
  const end = parts[parts.length - 1].start + parts[parts.length - 1].size;
  const rest = zone.bytes.length - end;
  if (rest > 0) parts.push({ kind: "beyond", key: "beyond", start: end, size: rest, least: 0 });
  return parts;
}

/** Left edges of the parts, for a bar so wide: to scale, but none below its least width, or a part of it where there are many. */
function edgesOf(parts, wide) {
  const beyond = parts[parts.length - 1].kind === "beyond" ? Math.min(BEYOND_WIDTH, wide / 6) : 0;
  const room = wide - beyond;
  const scaled = beyond ? parts.length - 1 : parts.length;
  let least = 0, bytes = 0;
  for (let i = 0; i < scaled; i++) { least += parts[i].least; bytes += parts[i].size; }
  const factor = Math.min(1, (LEAST_SHARE * room) / least);
  let low = 0, high = room / Math.max(1, bytes);
  for (let round = 0; round < 24; round++) {
    const scale = (low + high) / 2;
    let total = 0;
    for (let i = 0; i < scaled; i++) total += Math.max(parts[i].least * factor, parts[i].size * scale);
    if (total > room) high = scale; else low = scale;
  }
  const edges = new Float64Array(parts.length + 1);
  for (let i = 0; i < scaled; i++) edges[i + 1] = edges[i] + Math.max(parts[i].least * factor, parts[i].size * low);
  if (beyond) edges[parts.length] = edges[scaled] + beyond;
  return { edges, scale: low, toScale: parts.every((part, i) => i >= scaled || part.size * low >= part.least * factor - 0.01) };
}
