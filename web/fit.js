// Would c bytes fit, and why: the need of each kind, which bays' sums reach it, and what the library answers on a copy.

/** What a call asks of a zone; null where it is no call for space. */
function wantOf(step, zone) {
  if (!zone.wellFormed || step.kind !== "call") return null;
  switch (step.name) {
    case "allocate_relocatable": return { kind: "relocatable", c: step.args[0] };
    case "allocate_fixed": return { kind: "fixed", c: step.args[0] };
    case "create_page": return { kind: "page", name: step.args[0], c: step.args[1] };
    case "resize": return { kind: "resize", handle: step.args[0], c: step.args[1] };
    default: return null;
  }
}

const NEEDS = {
  relocatable: { limit: N.RELOCATABLE_LIMIT, of: (c) => up4(N.RELOCATABLE_HEADER + c), called: "a relocatable block" },
  resize: { limit: N.RELOCATABLE_LIMIT, of: (c) => N.RELOCATABLE_HEADER + up4(c), called: "a relocatable block" },
  fixed: { limit: N.FIXED_LIMIT, of: (c) => up4(N.FIXED_HEADER + c), called: "a fixed block" },
  page: { limit: N.PAGE_LIMIT, of: (c) => up4(N.PAGE_HEADER + c), called: "a page" },
};

/**
 * Each bay with what is needed of it, which one is taken, and words for why; `number` is the refusal that they come to, 0 for none,
 * null where the library alone can tell: what a create drops.
 */
function fitOf(zone, want) {
  const fit = { want, need: NEEDS[want.kind].of(want.c), bays: [], chosen: -1, number: null, said: [], adds: false };
  const block = want.kind === "resize" ? zone.blocks.find((other) => other.handle === want.handle) : null;
  const early = refusedEarly(zone, want, block);
  if (early) return { ...fit, ...early };
  if (want.kind === "relocatable" && zone.live === zone.masters.length) {
    fit.adds = true;
    if (!canAdd(zone)) return { ...fit, number: 4, said: [addWords(zone)] };
    fit.said.push(`${noMaster(zone)}: eight are added first, for ${N.ADDED_BYTES} bytes of bay 0.`);
  }
  fit.ownEnd = block ? block.end : -1;
  fit.bays = zone.bays.map((bay) => bayFit(bay, fit, want, block));
  const reaching = fit.bays.filter((bay) => bay.reaches);
  const chosen = reaching.find((bay) => bay.own) ?? (want.kind === "fixed" ? reaching[reaching.length - 1] : reaching[0]);
  return chosen ? fits(fit, chosen) : fitsNowhere(fit, zone);
}

/** What refuses the call before any sum is looked at. */
function refusedEarly(zone, want, block) {
  if (block === undefined) return { need: 0, number: 6, said: [`No block has handle ${want.handle}.`] };
  if (want.kind === "page" && zone.blocks.some((other) => other.type === PAGE && other.page === want.name)) return { number: 11, said: [`A page has the name ${want.name}.`] };
  const { limit, called } = NEEDS[want.kind];
  if (want.c > limit) return { need: 0, number: 3, said: [`${grouped(want.c)} data bytes are more than ${grouped(limit)}, the most that ${called} can have.`] };
  return null;
}

function noMaster(zone) {
  const count = zone.masters.length;
  return count === 0 ? "There is no master yet" : count === 1 ? "The one master is in use" : `All ${grouped(count)} masters are in use`;
}

function canAdd(zone) {
  return zone.masters.length + N.ADDED_MASTERS <= N.MOST_MASTERS && zone.bays[0].sum >= N.ADDED_BYTES;
}

function addWords(zone) {
  const sum = zone.bays[0].sum;
  const many = sum < N.ADDED_BYTES ? "" : `, and there would be more than ${grouped(N.MOST_MASTERS)}`;
  return `${noMaster(zone)}. Eight more take ${N.ADDED_BYTES} bytes of bay 0, whose sum is ${grouped(sum)}${many}.`;
}

function bayFit(bay, fit, want, block) {
  const own = block !== null && block.bay === bay.index;
  const sum = bay.sum - (fit.adds && bay.index === 0 ? N.ADDED_BYTES : 0);
  const need = own ? Math.max(0, up4(want.c) - block.dataSize) : fit.need;
  return { bay, own, sum, need, reaches: sum >= need };
}

function fits(fit, chosen) {
  return { ...fit, number: 0, chosen: chosen.bay.index, said: [...fit.said, reachWords(chosen, fit)] };
}

function fitsNowhere(fit, zone) {
  const own = fit.bays.find((bay) => bay.own);
  const need = own ? `${grouped(fit.need)} (nor the ${grouped(own.need)} more in its own bay)` : grouped(fit.need);
  const most = grouped(largestOf(fit.bays, (bay) => bay.sum));
  const said = [...fit.said];
  if (fit.bays.length === 1) said.push(`The one bay’s sum is ${most}, below the ${need} that it needs.`);
  else said.push(`No bay’s sum reaches ${need}: the largest is ${most}. ${grouped(zone.total)} bytes are free in all, but sums of two bays are never added.`);
  const drops = fit.want.kind === "page" && zone.blocks.some((block) => block.type === PAGE && !block.lock);
  if (drops) said.push("A create drops pages that are not locked then, the oldest first.");
  return { ...fit, number: drops ? null : 5, said };
}

/** Why a bay's sum is enough, and whether its blocks have to slide. */
function reachWords(found, fit) {
  const { bay, sum, need, own } = found;
  if (own && need === 0) return `Bay ${bay.index}: the block does not grow, so it needs nothing.`;
  const reaches = `Bay ${bay.index}: sum ${grouped(sum)} reaches ${grouped(need)}`;
  const enough = holeThatIsEnough(found, fit);
  if (enough) return `${reaches}, and ${enough} is big enough: nothing slides.`;
  if (bay.largest < need) return `${reaches} although the largest hole is ${grouped(bay.largest)}: the bay’s blocks slide.`;
  return `${reaches}; the bay’s blocks slide${slideWords(found, fit)}.`;
}

function slideWords({ bay, own }, fit) {
  if (fit.adds && bay.index === 0) return ", since masters are added at its start";
  if (fit.want.kind === "fixed") return ", since the free bytes are not at its end";
  return own ? ", since the free bytes are not right behind it" : "";
}

/** Words for the free block that takes it as things lie, or nothing where blocks have to slide. */
function holeThatIsEnough({ bay, own, need }, fit) {
  if (fit.adds && bay.index === 0) return bay.blocks === bay.free.length ? "what is left" : "";
  if (fit.want.kind === "fixed") return bay.last?.type === FREE && bay.last.size >= need ? "the free block at its end" : "";
  if (own) return bay.free.some((hole) => hole.offset === fit.ownEnd && hole.size >= need) ? "the free block right behind it" : "";
  return bay.largest >= need ? "one free block" : "";
}

// -- the library, asked on a copy

/** The call, made by the library on a copy of the buffer: its answer, and the pages that it would drop. */
function triedOf(library, zone, want) {
  return library.onCopy(() => {
    const answer = {
      relocatable: () => library.allocate_relocatable(want.c), fixed: () => library.allocate_fixed(want.c),
      page: () => library.create_page(want.name, want.c), resize: () => library.resize(want.handle, want.c),
    }[want.kind]();
    return { number: answer.number, value: answer.values[0] ?? 0, gone: want.kind === "page" && answer.number === 0 ? gonePages(library, zone) : [] };
  });
}

/** The names of the zone's pages that the buffer has no longer. */
function gonePages(library, zone) {
  const stay = new Set();
  for (const block of headersFrom(library.bytes, library.walker_start(), library.length().values[0])) if (block.type === PAGE) stay.add(block.page);
  return zone.blocks.filter((block) => block.type === PAGE && !stay.has(block.page)).map((block) => block.page);
}

/** A page's name that no page of the zone has. */
function freeName(zone) {
  const names = new Set(zone.blocks.filter((block) => block.type === PAGE).map((block) => block.page));
  let name = 1;
  while (names.has(name)) name++;
  return name;
}

function triedWords(want, tried) {
  if (tried.number !== 0) return `${tried.number}: ${SHORT_CAUSES[tried.number]}${tried.number === 12 ? ` (page ${tried.value})` : ""}`;
  const value = { relocatable: `handle ${tried.value}`, fixed: `pointer ${tried.value}`, page: `data at ${tried.value}`, resize: "resized" }[want.kind];
  return `0: ${value}${tried.gone.length ? `, after dropping page ${named(tried.gone, String)}` : ""}`;
}
