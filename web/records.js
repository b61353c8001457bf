// The list at hand as records of 16 bytes for zone-run, as far as it has codes for the calls.

const RECORD_CODES = { initialize: 0, allocate_relocatable: 1, allocate_fixed: 2, free_handle: 3, free_pointer: 4, resize: 5, write: 6, read: 7, compact: 8, enlarge: 9, shrink: 10 };
const ZONE_RUN_BUFFER = 65536;

function record(code, a = 0, b = 0, d = 0) {
  const bytes = new Uint8Array(16);
  bytes[0] = code;
  bytes.set(bigBytes([a, b, d]), 4);
  return bytes;
}

/** The records of a step; none where zone-run has no code for it. A write or read by handle has one for each byte. */
function recordsOf(step) {
  if (step.kind !== "call" || !Object.hasOwn(RECORD_CODES, step.name)) return [];
  const code = RECORD_CODES[step.name];
  if (step.name !== "write" && step.name !== "read") return [record(code, ...step.args)];
  const [block, offset, count, bytes] = step.args;
  const refused = step.told && step.told.answer[0] !== 0;
  if (block.by !== "handle" || (refused && count !== 1) || offset + count > MOST_ARGUMENT || (code === 6 && bytes.length < count)) return [];
  return Array.from({ length: count }, (_, i) => record(code, block.block, offset + i, code === 6 ? bytes[i] : 0));
}

/** All records, and a sentence on what is not in them. */
function recordFile(origin, steps) {
  const all = [], left = new Map();
  let several = 0;
  for (const step of steps) {
    const records = recordsOf(step);
    if (!records.length) left.set(step.name ?? "set", (left.get(step.name ?? "set") ?? 0) + 1);
    if (records.length > 1) several++;
    all.push(...records);
  }
  const said = [`${counted(all.length, "record")} of 16 bytes`];
  if (several) said.push(`${counted(several, "write or read", "writes or reads")} by handle became a record for each byte`);
  if (left.size) said.push(`left out, as zone-run has no code for them: ${[...left].map(([name, count]) => (count > 1 ? `${name} (${count})` : name)).join(", ")}`);
  if (origin.length !== ZONE_RUN_BUFFER || origin.some((byte) => byte !== 0)) {
    said.push(`zone-run’s buffer is ${grouped(ZONE_RUN_BUFFER)} zero bytes and this one is not, so an initialize or an enlarge may be answered otherwise`);
  }
  return { bytes: joined(all), said: said.join("; ") + "." };
}
