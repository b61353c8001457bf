//! The zone of document 01: handles, fixed blocks and bays over one lent
//! byte buffer. Its pages (document 02, U5) have calls of their own in `pages`;
//! the census has its own file, too.
//!
//! Every call but `initialize` and `check` first checks the whole zone and is
//! refused with 1 unless it is well-formed. After that check every offset read
//! from the zone lies inside it. All refusals are decided before the first
//! byte is written, so a refused call changes no byte. Each call takes time
//! linear in the zone's length L.
//!
//! Text in quotation marks is document 01's, or document 02's where that is
//! said.

#![forbid(unsafe_code)]

use std::ops::Range;

#[path = "census.rs"]
mod census;
#[path = "pages.rs"]
mod pages;

// zone-run makes no page and takes no census
#[allow(unused_imports)]
pub use census::{census, read_limits, stratum, stratum_by, STRATA};
#[allow(unused_imports)]
pub use pages::{clear_dirty, clear_lock, create_page, drop_page, set_dirty, set_lock, use_page};
#[allow(unused_imports)]
pub use pages::SCATTER;

// ---------------------------------------------------------------- answers

/// The causes of the table 'Refused calls', and document 02's.
#[derive(Clone, Copy, Debug, PartialEq, Eq)]
pub enum Refusal {
    NotWellFormed,
    BadInitialize,
    TooLarge,
    NoFreeMaster,
    NoSpace,
    HandleNotLive,
    PointerNotFixed,
    PastBlockEnd,
    BadEnlarge,
    SecondBufferShort,
    NamePresent,
    /// the dropping would reach this dirty page
    DirtyPage(u32),
    NameAbsent,
    BadLimits,
}

impl Refusal {
    pub fn number(self) -> u32 {
        match self {
            Refusal::NotWellFormed => 1,
            Refusal::BadInitialize => 2,
            Refusal::TooLarge => 3,
            Refusal::NoFreeMaster => 4,
            Refusal::NoSpace => 5,
            Refusal::HandleNotLive => 6,
            Refusal::PointerNotFixed => 7,
            Refusal::PastBlockEnd => 8,
            Refusal::BadEnlarge => 9,
            Refusal::SecondBufferShort => 10,
            Refusal::NamePresent => 11,
            Refusal::DirtyPage(_) => 12,
            Refusal::NameAbsent => 13,
            Refusal::BadLimits => 14,
        }
    }
}

/// A call's values, or the one refusal that the order picks.
pub type Answer<T> = Result<T, Refusal>;

/// What a refused call gives for its values.
pub trait Values: Default {
    /// 0 for each
    fn when_refused(_: Refusal) -> Self {
        Self::default()
    }
}

impl Values for () {}
impl Values for (u32, u32) {}
impl Values for [u32; STRATA] {}
impl Values for Walker {}
impl Values for Step {}

/// 12's "value, alone among refusals, is that block's name" (document 02, U5).
impl Values for u32 {
    fn when_refused(refusal: Refusal) -> u32 {
        match refusal {
            Refusal::DirtyPage(name) => name,
            _ => 0,
        }
    }
}

/// The refusal number (0 if done) and the values.
pub fn numbers<T: Values>(answer: Answer<T>) -> (u32, T) {
    match answer {
        Ok(values) => (0, values),
        Err(refusal) => (refusal.number(), T::when_refused(refusal)),
    }
}

// ------------------------------------------------ numbers, high byte first

#[inline]
fn get16(bytes: &[u8], at: usize) -> u32 {
    u32::from(u16::from_be_bytes([bytes[at], bytes[at + 1]]))
}

#[inline]
fn get32(bytes: &[u8], at: usize) -> u32 {
    let b = &bytes[at..at + 4];
    u32::from_be_bytes([b[0], b[1], b[2], b[3]])
}

#[inline]
fn put16(bytes: &mut [u8], at: usize, value: u32) {
    bytes[at..at + 2].copy_from_slice(&(value as u16).to_be_bytes());
}

#[inline]
fn put32(bytes: &mut [u8], at: usize, value: u32) {
    bytes[at..at + 4].copy_from_slice(&value.to_be_bytes());
}

/// "up4(k) is the least multiple of 4 not below k."
#[inline]
fn up4(k: usize) -> usize {
    (k + 3) & !3
}

/// Whether all bytes are zero: by long chunks, which compile to vectors, then
/// by words of 8 bytes, then by bytes.
fn all_zero(bytes: &[u8]) -> bool {
    let mut chunks = bytes.chunks_exact(256);
    if !chunks.by_ref().all(|chunk| chunk.iter().fold(0, |seen, byte| seen | byte) == 0) {
        return false;
    }
    let mut words = chunks.remainder().chunks_exact(8);
    words.by_ref().all(|word| word == [0; 8]) && words.remainder().iter().all(|&byte| byte == 0)
}

// ------------------------------------------------------------------ header

/// "Header, 16 bytes"; "Masters follow, 4 bytes each, at 16 + 4i".
const HEADER: usize = 16;
const MASTER: usize = 4;

const AT_LENGTH: usize = 0;
const AT_FIRST: usize = 4;
const AT_MASTERS: usize = 8;
const AT_CHAIN: usize = 12;
/// "Header byte 14 becomes a clock, byte 15 remains zero" (document 02, U5).
const AT_CLOCK: usize = 14;
const AT_ZERO: usize = 15;

/// "at most the buffer's length and 1,048,576"; "m ≤ 8,188".
pub const LENGTH_LIMIT: usize = 1_048_576;
pub const MASTERS_LIMIT: usize = 8_188;

/// "eight masters are added: the first bay gives up 32 bytes" (document 02, U3).
const ADDED_MASTERS: usize = 8;
const ADDED: usize = MASTER * ADDED_MASTERS;

/// What the check learns of a well-formed zone.
#[derive(Clone, Copy)]
struct Layout {
    /// L
    length: usize,
    /// bkFst
    first: usize,
    /// m
    masters: usize,
    /// number of relocatable blocks
    live: usize,
}

impl Layout {
    /// Whether the offset is a master's: 16 + 4i for an i below m.
    #[inline]
    fn is_master(&self, offset: usize) -> bool {
        (HEADER..self.first).contains(&offset) && offset % MASTER == 0
    }
}

// ------------------------------------------------------------------ blocks

#[derive(Clone, Copy, Debug, PartialEq, Eq)]
pub enum Kind {
    Free = 0,
    Fixed = 1,
    Relocatable = 2,
    /// document 02's named block
    Page = 3,
}

/// A block: its type, its first byte's offset, its size with the header.
#[derive(Clone, Copy, Debug)]
struct Block {
    kind: Kind,
    at: usize,
    size: usize,
}

/// "Block header lengths and limits belong to the block type".
impl Block {
    const FREE_HEADER: usize = 4;
    /// document 02, U6
    const FIXED_HEADER: usize = 4;
    const RELOCATABLE_HEADER: usize = 4;
    const PAGE_HEADER: usize = 8;
    const FIXED_DATA_LIMIT: u32 = 32_760;
    const RELOCATABLE_DATA_LIMIT: u32 = 32_760;
    const PAGE_DATA_LIMIT: u32 = 32_756;
    /// sizes "are multiples of 4 and at least 4"; a page's is "at least 8"
    const LEAST: usize = 4;
    const PAGE_LEAST: usize = 8;
    /// the type bits of a 2-byte size
    const FIXED_BITS: u32 = 0x4000;
    const RELOCATABLE_BITS: u32 = 0x8000;
    const PAGE_BITS: u32 = 0xC000;

    /// the type bits of a block's first four bytes
    const HIGH_BIT: u32 = 0x8000_0000;
    const NEXT_BIT: u32 = 0x4000_0000;

    /// The size that a 14-bit one stands for, by the block's first four bytes.
    #[inline]
    fn short_size(word: u32) -> usize {
        (word >> 15 & 0x7FFE) as usize
    }

    /// The block that starts at `at`.
    #[inline]
    fn read(zone: &[u8], at: usize) -> Block {
        let word = get32(zone, at);
        let short_size = Block::short_size(word);
        match word >> 30 {
            0 => Block { kind: Kind::Free, at, size: 2 * word as usize },
            1 => Block { kind: Kind::Fixed, at, size: short_size },
            2 => Block { kind: Kind::Relocatable, at, size: short_size },
            _ => Block { kind: Kind::Page, at, size: short_size },
        }
    }

    #[inline]
    fn end(&self) -> usize {
        self.at + self.size
    }

    fn header(&self) -> usize {
        match self.kind {
            Kind::Free => Block::FREE_HEADER,
            Kind::Fixed => Block::FIXED_HEADER,
            Kind::Relocatable => Block::RELOCATABLE_HEADER,
            Kind::Page => Block::PAGE_HEADER,
        }
    }

    /// Offset of the first data byte.
    #[inline]
    fn data(&self) -> usize {
        self.at + self.header()
    }

    /// "Data size is block size less header".
    #[inline]
    fn data_size(&self) -> usize {
        self.size - self.header()
    }

    /// A relocatable block's handle, its header's second word.
    #[inline]
    fn handle(&self, zone: &[u8]) -> usize {
        get16(zone, self.at + 2) as usize
    }
}

/// "Free: a 4-byte size in 2-byte words"; for size 0 there is no block.
fn put_free(zone: &mut [u8], at: usize, size: usize) {
    if size > 0 {
        put32(zone, at, (size / 2) as u32);
    }
}

/// "Fixed: 14-bit size in words"; "the second word zero" (document 02, U6).
fn put_fixed(zone: &mut [u8], at: usize, size: usize) {
    put16(zone, at, Block::FIXED_BITS | (size / 2) as u32);
    put16(zone, at + 2, 0);
}

/// "Relocatable: the same 14 bits, then the handle (2 bytes)"; its master
/// "holds the offset of the block's first data byte".
fn put_relocatable(zone: &mut [u8], at: usize, size: usize, handle: usize) {
    put16(zone, at, Block::RELOCATABLE_BITS | (size / 2) as u32);
    put16(zone, at + 2, handle as u32);
    put32(zone, handle, (at + Block::RELOCATABLE_HEADER) as u32);
}

// ------------------------------------------------------------- well-formed

/// The rules of 'Well-formed': the header, one pass over the blocks, the chain.
fn inspect(zone: &[u8]) -> Option<Layout> {
    inspect_showing(zone, |_| ())
}

/// The same; each page is shown when it is met.
#[inline]
fn inspect_showing(zone: &[u8], show: impl FnMut(&pages::Page)) -> Option<Layout> {
    let mut layout = inspect_header(zone)?;
    layout.live = inspect_blocks(zone, &layout, show)?;
    let chain = inspect_chain(zone, &layout)?;
    // "relocatable blocks plus chain length equal m"
    (layout.live + chain == layout.masters).then_some(layout)
}

fn inspect_header(zone: &[u8]) -> Option<Layout> {
    // "the buffer has at least 16 bytes"; "byte 15 remains zero"
    if zone.len() < HEADER || zone[AT_ZERO] != 0 {
        return None;
    }
    let length = get32(zone, AT_LENGTH) as usize;
    let first = get32(zone, AT_FIRST) as usize;
    let masters = get32(zone, AT_MASTERS) as usize;
    // "L is a multiple of 4, at most the buffer's length and 1,048,576;
    // m ≤ 8,188; bkFst as above and ≤ L"
    let good = length % 4 == 0
        && length <= zone.len().min(LENGTH_LIMIT)
        && masters <= MASTERS_LIMIT
        && first == HEADER + MASTER * masters
        && first <= length;
    good.then_some(Layout { length, first, masters, live: 0 })
}

/// Answers the number of relocatable blocks. Each type has a branch of its own up
/// to the block's end: so the next block can be looked for before this one is judged.
#[inline]
fn inspect_blocks(
    zone: &[u8],
    layout: &Layout,
    mut show: impl FnMut(&pages::Page),
) -> Option<usize> {
    let zone = &zone[..layout.length];
    let mut live = 0;
    let mut names = Vec::new();
    let mut after_free = false;
    let mut at = layout.first;
    // "blocks tile bkFst to L"
    while at < zone.len() {
        let word = get32(zone, at);
        if word & Block::HIGH_BIT != 0 {
            let size = Block::short_size(word);
            if word & Block::NEXT_BIT == 0 {
                // "each relocatable block's handle is a master's offset and
                // that master holds the block's data offset"
                let handle = (word & 0xFFFF) as usize;
                if !layout.is_master(handle)
                    || get32(zone, handle) as usize != at + Block::RELOCATABLE_HEADER
                {
                    return None;
                }
                live += 1;
                at = end_of(zone, at, size, Block::LEAST)?;
            } else {
                let end = end_of(zone, at, size, Block::PAGE_LEAST)?;
                let page = pages::Page::read(zone, Block { kind: Kind::Page, at, size });
                if !page.status_is_good() {
                    return None;
                }
                names.push(page.name);
                show(&page);
                at = end;
            }
            after_free = false;
        } else if word & Block::NEXT_BIT != 0 {
            // "the second word zero" (document 02, U6)
            if word & 0xFFFF != 0 {
                return None;
            }
            at = end_of(zone, at, Block::short_size(word), Block::LEAST)?;
            after_free = false;
        } else {
            // "no two free blocks are neighbours"
            let end = end_of(zone, at, 2 * word as usize, Block::LEAST)?;
            if after_free || !all_zero(&zone[at + Block::FREE_HEADER..end]) {
                return None;
            }
            at = end;
            after_free = true;
        }
    }
    // "Names are distinct in a well-formed zone" (document 02, U5)
    pages::distinct(names).then_some(live)
}

/// The end of a block: "sizes [...] as above", and no end beyond the zone's.
#[inline]
fn end_of(zone: &[u8], at: usize, size: usize, least: usize) -> Option<usize> {
    (size % 4 == 0 && size >= least && size <= zone.len() - at).then_some(at + size)
}

/// "the chain from hFstFree visits only masters and ends in 0": its length.
/// A chain of more than m masters goes round and never ends.
fn inspect_chain(zone: &[u8], layout: &Layout) -> Option<usize> {
    let mut steps = 0;
    let mut master = get16(zone, AT_CHAIN) as usize;
    while master != 0 {
        if steps == layout.masters || !layout.is_master(master) {
            return None;
        }
        steps += 1;
        master = get32(zone, master) as usize;
    }
    Some(steps)
}

/// "zone not well-formed (all calls but initialize and check)": 1.
fn open(zone: &[u8]) -> Answer<Layout> {
    inspect(zone).ok_or(Refusal::NotWellFormed)
}

// -------------------------------------------------------- finding blocks

/// The blocks from an offset to an end, in address order.
struct Blocks<'z> {
    zone: &'z [u8],
    at: usize,
    end: usize,
}

impl Iterator for Blocks<'_> {
    type Item = Block;

    #[inline]
    fn next(&mut self) -> Option<Block> {
        if self.at >= self.end {
            return None;
        }
        let block = Block::read(self.zone, self.at);
        self.at = block.end();
        Some(block)
    }
}

fn blocks(zone: &[u8], range: Range<usize>) -> Blocks<'_> {
    Blocks { zone, at: range.start, end: range.end }
}

fn all_blocks<'z>(zone: &'z [u8], layout: &Layout) -> Blocks<'z> {
    blocks(zone, layout.first..layout.length)
}

/// A block and where a free stretch would start that takes it in: at its free
/// left neighbour, or at the block itself.
struct Found {
    block: Block,
    free_from: usize,
}

/// The block that starts at this very offset. Only of the block before it the
/// type is asked, when it is known.
fn find_start(zone: &[u8], layout: &Layout, at: usize) -> Option<Found> {
    let (mut before, mut start) = (None, layout.first);
    while start < at && start < layout.length {
        before = Some(start);
        start = Block::read(zone, start).end();
    }
    if start != at || start >= layout.length {
        return None;
    }
    let free_left = before.filter(|&left| Block::read(zone, left).kind == Kind::Free);
    Some(Found { block: Block::read(zone, at), free_from: free_left.unwrap_or(at) })
}

/// A live handle's block. A free master holds 0 or a master's offset, a live
/// one an offset beyond the masters.
fn find_handle(zone: &[u8], layout: &Layout, handle: u32) -> Answer<Block> {
    let handle = handle as usize;
    if !layout.is_master(handle) {
        return Err(Refusal::HandleNotLive);
    }
    let data = get32(zone, handle) as usize;
    if data < layout.first {
        return Err(Refusal::HandleNotLive);
    }
    Ok(Block::read(zone, data - Block::RELOCATABLE_HEADER))
}

/// The fixed block whose data offset the pointer is.
fn find_pointer(zone: &[u8], layout: &Layout, pointer: u32) -> Answer<Found> {
    (pointer as usize)
        .checked_sub(Block::FIXED_HEADER)
        .and_then(|at| find_start(zone, layout, at))
        .filter(|found| found.block.kind == Kind::Fixed)
        .ok_or(Refusal::PointerNotFixed)
}

// -------------------------------------------------------------------- bays

/// "A bay is the stretch between two neighbouring fixed blocks, or between
/// such a block and bkFst or L, or with no fixed block all from bkFst to L".
#[derive(Clone, Copy)]
struct Bay {
    start: usize,
    end: usize,
    /// "the total size of its free blocks"
    sum: usize,
    /// size of its last block if that is free, else 0
    last_free: usize,
}

/// All bays in address order, empty ones included; there is at least one.
struct Bays<'z> {
    blocks: Blocks<'z>,
    start: usize,
    done: bool,
}

impl Bays<'_> {
    /// The next bay; its free blocks are shown in address order.
    #[inline]
    fn next_showing(&mut self, mut show: impl FnMut(Block)) -> Option<Bay> {
        if self.done {
            return None;
        }
        let mut bay = Bay { start: self.start, end: self.blocks.end, sum: 0, last_free: 0 };
        for block in self.blocks.by_ref() {
            match block.kind {
                Kind::Free => {
                    bay.sum += block.size;
                    bay.last_free = block.size;
                    show(block);
                }
                Kind::Relocatable | Kind::Page => bay.last_free = 0,
                Kind::Fixed => {
                    bay.end = block.at;
                    self.start = block.end();
                    return Some(bay);
                }
            }
        }
        self.done = true;
        Some(bay)
    }
}

impl Iterator for Bays<'_> {
    type Item = Bay;

    fn next(&mut self) -> Option<Bay> {
        self.next_showing(|_| ())
    }
}

fn bays<'z>(zone: &'z [u8], layout: &Layout) -> Bays<'z> {
    Bays { blocks: all_blocks(zone, layout), start: layout.first, done: false }
}

/// "To compact a bay: its relocatable blocks go to its start in old order, one
/// free block holds the rest (none for 0), masters follow." Answers that free
/// block, of size 0 for none.
fn compact_bay(zone: &mut [u8], bay: &Bay) -> Block {
    compact_from(zone, bay.start, bay.end).0
}

/// Compacts the bay that starts at `start`, up to its fixed block or to `limit`, in
/// one walk: a run of blocks that slide ("Named blocks slide as relocatable ones
/// do", document 02, U5) goes down as one, after its masters were set. Answers the
/// free block, and where the next bay starts if there is one.
#[inline]
fn compact_from(zone: &mut [u8], start: usize, limit: usize) -> (Block, Option<usize>) {
    let (mut to, mut live_end) = (start, start);
    let mut at = start;
    let next_bay = loop {
        let run = at;
        let mut next = None;
        while at < limit {
            let block = Block::read(zone, at);
            if matches!(block.kind, Kind::Free | Kind::Fixed) {
                next = Some(block);
                break;
            }
            if to < run && block.kind == Kind::Relocatable {
                let master = block.handle(zone);
                put32(zone, master, (block.data() - (run - to)) as u32);
            }
            at = block.end();
        }
        if run < at {
            if to < run {
                zone.copy_within(run..at, to);
            }
            to += at - run;
            live_end = at;
        }
        match next {
            Some(free) if free.kind == Kind::Free => at = free.end(),
            fixed => break fixed.map(|fixed| fixed.end()),
        }
    };
    if to < at {
        // Old blocks stood up to live_end, and at most one free header after it.
        zone[to..at.min(live_end + Block::FREE_HEADER)].fill(0);
        put_free(zone, to, at - to);
    }
    (Block { kind: Kind::Free, at: to, size: at - to }, next_bay)
}

/// "masters follow": that of a relocatable block which now stands here. A page
/// has none.
#[inline]
fn follow(zone: &mut [u8], block: Block) {
    if block.kind == Kind::Relocatable {
        let master = block.handle(zone);
        put32(zone, master, block.data() as u32);
    }
}

/// A bay whose sum reaches a need, and its tightest hole if one is big enough.
struct Room {
    bay: Bay,
    tightest: Option<Block>,
}

/// Of the bays to come "the lowest whose sum reaches the need", with its
/// tightest hole.
fn lowest_room(mut bays: Bays, need: usize) -> Answer<Room> {
    loop {
        let mut tightest = None;
        let bay = bays
            .next_showing(|free| tightest = tighter(tightest, free, need))
            .ok_or(Refusal::NoSpace)?;
        if bay.sum >= need {
            return Ok(Room { bay, tightest });
        }
    }
}

/// "the smallest free block that is big enough, the lowest of equals" (document
/// 02, U2), of the tightest so far and a free block above it.
#[inline]
fn tighter(so_far: Option<Block>, free: Block, need: usize) -> Option<Block> {
    if free.size >= need && so_far.is_none_or(|hole| free.size < hole.size) {
        Some(free)
    } else {
        so_far
    }
}

/// The tightest hole that is big enough, "from its low end; if none is, the
/// bay is compacted first." Answers where the block goes: its data are zero, and
/// its header of 4 or 8 bytes, which the caller writes, covers the old free size.
fn take_low(zone: &mut [u8], room: &Room, need: usize) -> usize {
    let free = match room.tightest {
        Some(hole) => hole,
        None => compact_bay(zone, &room.bay),
    };
    put_free(zone, free.at + need, free.size - need);
    free.at
}

/// The bytes from `at` to `end` are given up: they become free, merged with a
/// free block right after them and with one that starts at `free_from` and
/// ends at `at` (`free_from` is `at` if there is none).
fn give_up(zone: &mut [u8], layout: &Layout, free_from: usize, at: usize, end: usize) {
    let mut free_to = end;
    if end < layout.length {
        let next = Block::read(zone, end);
        if next.kind == Kind::Free {
            put32(zone, next.at, 0);
            free_to = next.end();
        }
    }
    zone[at..end].fill(0);
    put_free(zone, free_from, free_to - free_from);
}

// ------------------------------------------------------------- initialize

/// "Initialize (length, m): all L bytes are set and no later one; chain
/// ascending; one free block, or none." "the clock starts at 0" (document 02,
/// U5).
pub fn initialize(zone: &mut [u8], length: u32, m: u32) -> Answer<()> {
    // "length not a multiple of 4, below 16 + 4m, above the buffer or
    // 1,048,576; m above 8,188": m is judged first, so 16 + 4m stays small.
    let (length, masters) = (length as usize, m as usize);
    if masters > MASTERS_LIMIT
        || length % 4 != 0
        || length < HEADER + MASTER * masters
        || length > zone.len().min(LENGTH_LIMIT)
    {
        return Err(Refusal::BadInitialize);
    }
    let first = HEADER + MASTER * masters;
    zone[..length].fill(0);
    put32(zone, AT_LENGTH, length as u32);
    put32(zone, AT_FIRST, first as u32);
    put32(zone, AT_MASTERS, m);
    if masters > 0 {
        put16(zone, AT_CHAIN, HEADER as u32);
    }
    for next in (HEADER + MASTER..first).step_by(MASTER) {
        put32(zone, next - MASTER, next as u32);
    }
    put_free(zone, first, length - first);
    Ok(())
}

// --------------------------------------------------------------- allocate

/// "Allocate relocatable (c): takes the chain's head. Bay: the lowest whose
/// sum reaches the need. [...] Answers the handle. Data are zero."
pub fn allocate_relocatable(zone: &mut [u8], c: u32) -> Answer<u32> {
    let layout = open(zone)?;
    if c > Block::RELOCATABLE_DATA_LIMIT {
        return Err(Refusal::TooLarge);
    }
    let need = up4(Block::RELOCATABLE_HEADER + c as usize);
    let handle = get16(zone, AT_CHAIN) as usize;
    if handle == 0 {
        return allocate_growing(zone, &layout, need);
    }
    let room = lowest_room(bays(zone, &layout), need)?;
    let at = take_low(zone, &room, need);
    let next = get32(zone, handle);
    put16(zone, AT_CHAIN, next);
    put_relocatable(zone, at, need, handle);
    Ok(handle as u32)
}

/// Document 02, U3: "When a relocatable allocation finds the chain empty, eight
/// masters are added". 4 is "m + 8 above 8,188 or the first bay's sum below
/// 32"; "The block's need is tested against the sums after those 32 bytes are
/// taken; if none reaches it, 5 is given and no pool growth remains".
fn allocate_growing(zone: &mut [u8], layout: &Layout, need: usize) -> Answer<u32> {
    let mut bays = bays(zone, layout);
    let first = bays
        .next()
        .filter(|bay| bay.sum >= ADDED && layout.masters + ADDED_MASTERS <= MASTERS_LIMIT)
        .ok_or(Refusal::NoFreeMaster)?;
    let elsewhere = if first.sum - ADDED >= need { None } else { Some(lowest_room(bays, need)?) };
    let free = make_way(zone, &first);
    let handle = add_masters(zone, layout);
    let at = take_low(zone, &elsewhere.unwrap_or(Room { bay: first, tightest: Some(free) }), need);
    put_relocatable(zone, at, need, handle);
    Ok(handle as u32)
}

/// "the first bay gives up 32 bytes at its start, its blocks stand right after
/// those in old order without gaps, and the rest of that bay, if any, is one
/// free block at its end". Answers that free block, of size 0 for none. The 32
/// bytes are left with anything in them.
fn make_way(zone: &mut [u8], bay: &Bay) -> Block {
    // Blocks with fewer than 32 free bytes before them go up, those with more
    // go down. The former end with the free block that makes 32 bytes full.
    let (mut head, mut free) = (bay.start, 0);
    while free < ADDED {
        let block = Block::read(zone, head);
        if block.kind == Kind::Free {
            free += block.size;
        }
        head = block.end();
    }
    // Those that go up are put together at the bay's start, then go up as one
    // run, over free bytes alone.
    let gap = compact_bay(zone, &Bay { end: head, ..*bay });
    slide_up(zone, bay.start..gap.at, ADDED);
    let start = gap.at + ADDED;
    put_free(zone, start, gap.size - ADDED);
    compact_bay(zone, &Bay { start, ..*bay })
}

/// Eight masters from the old bkFst on, "chained ascending". Answers the first
/// of them, which is taken at once: the chain starts with the second.
fn add_masters(zone: &mut [u8], layout: &Layout) -> usize {
    let handle = layout.first;
    let first = handle + ADDED;
    for master in (handle..first).step_by(MASTER) {
        let next = master + MASTER;
        put32(zone, master, if next < first { next as u32 } else { 0 });
    }
    put32(zone, AT_FIRST, first as u32);
    put32(zone, AT_MASTERS, (layout.masters + ADDED_MASTERS) as u32);
    put16(zone, AT_CHAIN, (handle + MASTER) as u32);
    handle
}

/// "Allocate fixed (c): the highest bay whose sum reaches the need. If its
/// last block is free and big enough, the high end of that; else after
/// compacting. Answers the data offset, its pointer. Data are zero."
pub fn allocate_fixed(zone: &mut [u8], c: u32) -> Answer<u32> {
    let layout = open(zone)?;
    if c > Block::FIXED_DATA_LIMIT {
        return Err(Refusal::TooLarge);
    }
    let need = up4(Block::FIXED_HEADER + c as usize);
    let bay = bays(zone, &layout)
        .filter(|bay| bay.sum >= need)
        .last()
        .ok_or(Refusal::NoSpace)?;
    let free = last_free_block(zone, &bay, need);
    let at = bay.end - need;
    put32(zone, free.at, 0);
    put_free(zone, free.at, free.size - need);
    put_fixed(zone, at, need);
    Ok((at + Block::FIXED_HEADER) as u32)
}

/// The free block at the bay's end with at least `need` bytes: its last block
/// if that is free and big enough, else the one that compacting leaves.
fn last_free_block(zone: &mut [u8], bay: &Bay, need: usize) -> Block {
    if bay.last_free >= need {
        Block { kind: Kind::Free, at: bay.end - bay.last_free, size: bay.last_free }
    } else {
        compact_bay(zone, bay)
    }
}

// ------------------------------------------------------------------- free

/// "Free by handle [...]: the block becomes free, merged with free neighbours;
/// the master goes to the chain's head."
pub fn free_handle(zone: &mut [u8], handle: u32) -> Answer<()> {
    let layout = open(zone)?;
    let block = find_handle(zone, &layout, handle)?;
    give_up_block(zone, &layout, block);
    let old_head = get16(zone, AT_CHAIN);
    put32(zone, handle as usize, old_head);
    put16(zone, AT_CHAIN, handle);
    Ok(())
}

fn give_up_block(zone: &mut [u8], layout: &Layout, block: Block) {
    let free_from = find_start(zone, layout, block.at).map_or(block.at, |found| found.free_from);
    give_up(zone, layout, free_from, block.at, block.end());
}

/// "Free [...] by pointer: the block becomes free, merged with free
/// neighbours".
pub fn free_pointer(zone: &mut [u8], pointer: u32) -> Answer<()> {
    let layout = open(zone)?;
    let Found { block, free_from } = find_pointer(zone, &layout, pointer)?;
    give_up(zone, &layout, free_from, block.at, block.end());
    Ok(())
}

// ----------------------------------------------------------------- resize

/// "Resize (handle, c): new data size a = up4(c), old b. [...] The handle
/// stays, the common first bytes stay, added bytes are zero."
pub fn resize(zone: &mut [u8], handle: u32, c: u32) -> Answer<()> {
    let layout = open(zone)?;
    let block = find_handle(zone, &layout, handle)?;
    if c > Block::RELOCATABLE_DATA_LIMIT {
        return Err(Refusal::TooLarge);
    }
    let size = Block::RELOCATABLE_HEADER + up4(c as usize);
    let handle = handle as usize;
    if size <= block.size {
        cut(zone, &layout, &block, size, handle);
        return Ok(());
    }
    // "if its own bay's sum reaches a − b, it grows there [...] Otherwise it
    // moves to the lowest bay whose sum reaches 4 + a": the own bay, whose sum
    // is below a − b, is never that one.
    let own = bays(zone, &layout).find(|bay| block.at < bay.end).ok_or(Refusal::NoSpace)?;
    if own.sum >= size - block.size {
        grow(zone, &own, &block, size, handle);
    } else {
        let room = lowest_room(bays(zone, &layout), size)?;
        move_to(zone, &layout, &room, &block, size, handle);
    }
    Ok(())
}

/// "For a ≤ b the tail is freed and merged."
fn cut(zone: &mut [u8], layout: &Layout, block: &Block, size: usize, handle: usize) {
    if size < block.size {
        put_relocatable(zone, block.at, size, handle);
        let tail = block.at + size;
        give_up(zone, layout, tail, tail, block.end());
    }
}

/// "it grows there: into the free block right after it if that has at least
/// a − b bytes, or, failing that, the bay is laid out as compacted with this
/// block at its new size."
fn grow(zone: &mut [u8], bay: &Bay, block: &Block, size: usize, handle: usize) {
    let more = size - block.size;
    if block.end() < bay.end {
        let next = Block::read(zone, block.end());
        if next.kind == Kind::Free && next.size >= more {
            put32(zone, next.at, 0);
            put_free(zone, next.at + more, next.size - more);
            put_relocatable(zone, block.at, size, handle);
            return;
        }
    }
    // The compacted bay, then the run behind the block goes up by a − b.
    let free = compact_bay(zone, bay);
    let at = get32(zone, handle) as usize - Block::RELOCATABLE_HEADER;
    let end = at + block.size;
    slide_up(zone, end..free.at, more);
    zone[end..end + more].fill(0);
    put_free(zone, free.at + more, free.size - more);
    put_relocatable(zone, at, size, handle);
}

/// A run of blocks that slide goes up, masters follow.
fn slide_up(zone: &mut [u8], run: Range<usize>, by: usize) {
    zone.copy_within(run.clone(), run.start + by);
    let mut at = run.start + by;
    while at < run.end + by {
        let block = Block::read(zone, at);
        follow(zone, block);
        at = block.end();
    }
}

/// "it moves to the lowest bay whose sum reaches 4 + a, as an allocation does,
/// and the old place is freed"; "Resize into another bay does the same"
/// (document 02, U2). No compaction of that bay moves the old block, for a
/// fixed block stands between.
fn move_to(
    zone: &mut [u8],
    layout: &Layout,
    room: &Room,
    block: &Block,
    size: usize,
    handle: usize,
) {
    let at = take_low(zone, room, size);
    zone.copy_within(block.data()..block.end(), at + Block::RELOCATABLE_HEADER);
    put_relocatable(zone, at, size, handle);
    give_up_block(zone, layout, *block);
}

// ----------------------------------------------- size, read, write, view

/// "a stretch names its block, by handle or by pointer"; it "may give a name"
/// (document 02, U5).
#[derive(Clone, Copy, Debug, PartialEq, Eq)]
pub enum Target {
    Handle(u32),
    Pointer(u32),
    Name(u32),
}

/// "with an offset and a count".
#[derive(Clone, Copy, Debug, PartialEq, Eq)]
pub struct Stretch {
    pub block: Target,
    pub offset: u32,
    pub count: u32,
}

/// The block of a target in a zone that is well-formed.
fn open_target(zone: &[u8], target: Target) -> Answer<Block> {
    match target {
        Target::Handle(handle) => find_handle(zone, &open(zone)?, handle),
        Target::Pointer(pointer) => {
            find_pointer(zone, &open(zone)?, pointer).map(|found| found.block)
        }
        Target::Name(name) => pages::open_page(zone, name).map(|page| page.block),
    }
}

/// "Size takes the block alone and answers its data size."
pub fn size(zone: &[u8], block: Target) -> Answer<u32> {
    Ok(open_target(zone, block)?.data_size() as u32)
}

/// The stretch's place in the zone; "offset + count, unwrapped, above data
/// size" is 8.
fn place(zone: &[u8], stretch: Stretch) -> Answer<Range<usize>> {
    let block = open_target(zone, stretch.block)?;
    if u64::from(stretch.offset) + u64::from(stretch.count) > block.data_size() as u64 {
        return Err(Refusal::PastBlockEnd);
    }
    let start = block.data() + stretch.offset as usize;
    Ok(start..start + stretch.count as usize)
}

/// "Read and write copy count bytes to or from the start of a second buffer;
/// read leaves its later bytes."
pub fn read(zone: &[u8], stretch: Stretch, second: &mut [u8]) -> Answer<()> {
    let part = place(zone, stretch)?;
    let into = second.get_mut(..part.len()).ok_or(Refusal::SecondBufferShort)?;
    into.copy_from_slice(&zone[part]);
    Ok(())
}

pub fn write(zone: &mut [u8], stretch: Stretch, second: &[u8]) -> Answer<()> {
    let part = place(zone, stretch)?;
    let from = second.get(..part.len()).ok_or(Refusal::SecondBufferShort)?;
    zone[part].copy_from_slice(from);
    Ok(())
}

/// "A view hands back that part of the zone itself, of length 0 when refused;
/// it carries no number". A refused one starts at the buffer's first byte.
pub fn view(zone: &[u8], stretch: Stretch) -> &[u8] {
    &zone[place(zone, stretch).unwrap_or(0..0)]
}

// ----------------------------------------------------------- the whole zone

/// "Compact: every bay; answers the largest sum."
pub fn compact(zone: &mut [u8]) -> Answer<u32> {
    let layout = open(zone)?;
    let (mut largest, mut next) = (0, Some(layout.first));
    while let Some(start) = next {
        let (free, next_bay) = compact_from(zone, start, layout.length);
        largest = largest.max(free.size);
        next = next_bay;
    }
    Ok(largest as u32)
}

/// "Sum: total of free bytes and the largest bay's sum."
pub fn sum(zone: &[u8]) -> Answer<(u32, u32)> {
    let layout = open(zone)?;
    let (mut total, mut largest) = (0, 0);
    for bay in bays(zone, &layout) {
        total += bay.sum;
        largest = largest.max(bay.sum);
    }
    Ok((total as u32, largest as u32))
}

/// "Check: yes or no, and the number of relocatable blocks (0 for no)." It is
/// never refused.
pub fn check(zone: &[u8]) -> (bool, u32) {
    match inspect(zone) {
        Some(layout) => (true, layout.live as u32),
        None => (false, 0),
    }
}

/// "Length: L."
pub fn length(zone: &[u8]) -> Answer<u32> {
    Ok(open(zone)?.length as u32)
}

/// "Enlarge (k): L grows by k, new bytes free, zero and merged with a free
/// last block."
pub fn enlarge(zone: &mut [u8], k: u32) -> Answer<()> {
    let layout = open(zone)?;
    let old = layout.length;
    // "k no multiple of 4, or past buffer or 1,048,576"
    if k % 4 != 0 || k as usize > zone.len().min(LENGTH_LIMIT) - old {
        return Err(Refusal::BadEnlarge);
    }
    if k == 0 {
        return Ok(());
    }
    let new = old + k as usize;
    let free_from = match all_blocks(zone, &layout).last() {
        Some(block) if block.kind == Kind::Free => block.at,
        _ => old,
    };
    zone[old..new].fill(0);
    put_free(zone, free_from, new - free_from);
    put32(zone, AT_LENGTH, new as u32);
    Ok(())
}

/// "Shrink (k): strips s, the lesser of k rounded down to a multiple of 4 and
/// the last bay's sum; for s = 0 no byte changes; else the last bay is
/// compacted first, unless its last block is free and has at least s bytes. L
/// falls by s. Stripped bytes are zeroed; answers s."
pub fn shrink(zone: &mut [u8], k: u32) -> Answer<u32> {
    let layout = open(zone)?;
    let Some(bay) = bays(zone, &layout).last() else { return Ok(0) };
    let strip = (k as usize & !3).min(bay.sum);
    if strip == 0 {
        return Ok(0);
    }
    let free = last_free_block(zone, &bay, strip);
    put32(zone, free.at, 0);
    put_free(zone, free.at, free.size - strip);
    put32(zone, AT_LENGTH, (layout.length - strip) as u32);
    Ok(strip as u32)
}

/// "Roster: into a second buffer, 8 bytes a live handle (handle, data size; 4
/// bytes each), no header; answers how many." Document 02, U1: "Roster records
/// come by rising handle", the numbers high byte first.
pub fn roster(zone: &[u8], second: &mut [u8]) -> Answer<u32> {
    let layout = open(zone)?;
    if second.len() / 8 < layout.live {
        return Err(Refusal::SecondBufferShort);
    }
    let mut at = 0;
    for handle in (HEADER as u32..layout.first as u32).step_by(MASTER) {
        if let Ok(block) = find_handle(zone, &layout, handle) {
            put32(second, at, handle);
            put32(second, at + 4, block.data_size() as u32);
            at += 8;
        }
    }
    Ok(layout.live as u32)
}

// ------------------------------------------------------------------ walker

/// "It holds an offset and starts at bkFst."
#[derive(Clone, Copy, Debug, Default, PartialEq, Eq)]
pub struct Walker {
    pub offset: u32,
}

/// "At a block's start a step answers type, offset and size"; 0 for each
/// elsewhere.
#[derive(Clone, Copy, Debug, Default, PartialEq, Eq)]
pub struct Step {
    pub kind: u32,
    pub offset: u32,
    pub size: u32,
}

impl Walker {
    /// A walker at bkFst; a refused one has offset 0, where no block starts.
    pub fn start(zone: &[u8]) -> Answer<Walker> {
        Ok(Walker { offset: open(zone)?.first as u32 })
    }

    /// "gives back its next position [...] the position is then the block's
    /// end. At any other offset, L included, it answers 0 for each and stays,
    /// as it does when refused."
    pub fn step(self, zone: &[u8]) -> (Walker, Answer<Step>) {
        let layout = match open(zone) {
            Ok(layout) => layout,
            Err(refusal) => return (self, Err(refusal)),
        };
        match find_start(zone, &layout, self.offset as usize) {
            None => (self, Ok(Step::default())),
            Some(Found { block, .. }) => {
                let next = Walker { offset: block.end() as u32 };
                let step = Step {
                    kind: block.kind as u32,
                    offset: block.at as u32,
                    size: block.size as u32,
                };
                (next, Ok(step))
            }
        }
    }

    /// "one of its calls moves the caller's own walker".
    pub fn advance(&mut self, zone: &[u8]) -> Answer<Step> {
        let (next, answer) = self.step(zone);
        *self = next;
        answer
    }
}
