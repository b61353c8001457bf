//! Pages (document 02, U5: 'Named pages as a cache'): blocks that are found by a
//! name of the caller's, and dropped by age where a new one needs their room.
//!
//! Text in quotation marks is document 02's; its "named block" is a page here.

use super::{
    all_blocks, bays, get16, get32, give_up_block, inspect_showing, lowest_room, put16, put32,
    put_free, take_low, up4, Answer, Block, Kind, Layout, Refusal, AT_CLOCK,
};

// ------------------------------------------------------------------ layout

/// Behind the 2 bytes of type and size: "a 4-byte name, a status word".
const AT_NAME: usize = 2;
const AT_STATUS: usize = 6;

/// "In the status word the top bit is dirty, the next is lock, the low byte a
/// stamp, the rest zero."
const DIRTY: u32 = 0x8000;
const LOCK: u32 = 0x4000;
const ZEROS: u32 = 0x3F00;
const STAMP: u32 = 0x00FF;

/// An age is one of so many.
const AGES: usize = 256;

/// A page as its header tells it.
#[derive(Clone, Copy)]
pub(super) struct Page {
    pub(super) block: Block,
    pub(super) name: u32,
    status: u32,
}

impl Page {
    #[inline]
    pub(super) fn read(zone: &[u8], block: Block) -> Page {
        let name = get32(zone, block.at + AT_NAME);
        Page { block, name, status: get16(zone, block.at + AT_STATUS) }
    }

    /// The rule of well-formed: the status word's six bits are zero.
    #[inline]
    pub(super) fn status_is_good(&self) -> bool {
        self.status & ZEROS == 0
    }

    fn dirty(&self) -> bool {
        self.status & DIRTY != 0
    }

    fn locked(&self) -> bool {
        self.status & LOCK != 0
    }

    /// "Age is clock minus stamp, modulo 256".
    fn age(&self, clock: u8) -> u8 {
        clock.wrapping_sub((self.status & STAMP) as u8)
    }
}

/// "A new block has both flags clear": its status is the stamp alone.
fn put_page(zone: &mut [u8], at: usize, size: usize, name: u32, stamp: u8) {
    put16(zone, at, Block::PAGE_BITS | (size / 2) as u32);
    put32(zone, at + AT_NAME, name);
    put16(zone, at + AT_STATUS, u32::from(stamp));
}

/// "step the clock by one modulo 256"; answers the new clock, which is the stamp.
fn step_clock(zone: &mut [u8]) -> u8 {
    zone[AT_CLOCK] = zone[AT_CLOCK].wrapping_add(1);
    zone[AT_CLOCK]
}

// ------------------------------------------------------------------- names

/// Checks the zone, and looks for the page of this name in the same walk.
fn open_for(zone: &[u8], name: u32) -> Answer<(Layout, Option<Page>)> {
    let mut found = None;
    let meet = |page: &Page| {
        if page.name == name {
            found = Some(*page);
        }
    };
    let layout = inspect_showing(zone, meet).ok_or(Refusal::NotWellFormed)?;
    Ok((layout, found))
}

/// The page of this name in a zone that is well-formed.
pub(super) fn open_page(zone: &[u8], name: u32) -> Answer<Page> {
    open_for(zone, name)?.1.ok_or(Refusal::NameAbsent)
}

/// Whether no name comes twice: by a table in which a name has its place by its
/// bits, or else the next empty one. Where that takes many steps, which names can
/// be chosen for, they are sorted.
pub(super) fn distinct(names: Vec<u32>) -> bool {
    if names.len() < 2 {
        return true;
    }
    let bits = (2 * names.len()).next_power_of_two().trailing_zeros();
    // 0 is an empty place, so the name 0 has none
    let mut table = vec![0u32; 1 << bits];
    let mut zeros = 0;
    let mut steps = STEPS * names.len();
    for &name in &names {
        if name == 0 {
            zeros += 1;
            continue;
        }
        let mut place = (name.wrapping_mul(SCATTER) >> (32 - bits)) as usize;
        while table[place] != 0 {
            if table[place] == name {
                return false;
            }
            if steps == 0 {
                let sorted = sorted_by_name(names, |&name| name);
                return sorted.windows(2).all(|pair| pair[0] != pair[1]);
            }
            steps -= 1;
            place = (place + 1) & (table.len() - 1);
        }
        table[place] = name;
    }
    zeros < 2
}

/// An odd factor that spreads names over a number's high bits.
pub const SCATTER: u32 = 0x85EB_CA6B;

/// So many steps past places that are taken are made for each name, at most.
const STEPS: usize = 4;

/// So few items are sorted by comparing them.
const FEW: usize = 256;

/// The items by rising name: by its lowest byte, then by the next, and so on,
/// which takes time linear in their number.
fn sorted_by_name<T: Copy>(mut items: Vec<T>, name: impl Fn(&T) -> u32) -> Vec<T> {
    if items.len() < FEW {
        items.sort_by_key(name);
        return items;
    }
    let mut sorted = items.clone();
    for shift in [0, 8, 16, 24] {
        let byte = |item: &T| (name(item) >> shift & 0xFF) as usize;
        let mut places = [0; 256];
        for item in &items {
            places[byte(item)] += 1;
        }
        let mut at = 0;
        for place in &mut places {
            at += std::mem::replace(place, at);
        }
        for item in &items {
            let place = &mut places[byte(item)];
            sorted[*place] = *item;
            *place += 1;
        }
        std::mem::swap(&mut items, &mut sorted);
    }
    items
}

// ------------------------------------------------------------------ create

/// "Create needs up4(8 + c), with c at most 32,756, and is placed as a
/// relocatable block is." Answers the data offset. Data are zero.
pub fn create_page(zone: &mut [u8], name: u32, c: u32) -> Answer<u32> {
    let (layout, present) = open_for(zone, name)?;
    if present.is_some() {
        return Err(Refusal::NamePresent);
    }
    if c > Block::PAGE_DATA_LIMIT {
        return Err(Refusal::TooLarge);
    }
    let need = up4(Block::PAGE_HEADER + c as usize);
    let room = match lowest_room(bays(zone, &layout), need) {
        Ok(room) => room,
        Err(_) => {
            let leaving = pages_to_drop(zone, &layout, need)?;
            drop_all(zone, &layout, &leaving);
            lowest_room(bays(zone, &layout), need)?
        }
    };
    let at = take_low(zone, &room, need);
    let stamp = step_clock(zone);
    put_page(zone, at, need, name, stamp);
    Ok((at + Block::PAGE_HEADER) as u32)
}

/// "If no bay's sum reaches the need, unlocked named blocks are dropped, greatest
/// age first, smaller name among equals, until one does." Before that, "5 if
/// dropping all unlocked blocks wouldn't do"; 12: "the dropping would reach a
/// dirty block". The clock is still the one before the call's step.
fn pages_to_drop(zone: &[u8], layout: &Layout, need: usize) -> Answer<Vec<Page>> {
    let Droppable { mut sums, without_all, by_age } = droppable(zone, layout);
    if without_all.iter().all(|&sum| sum < need) {
        return Err(Refusal::NoSpace);
    }
    let mut leaving = Vec::new();
    // Of each age only those are sorted that may still be wanted.
    for equals in by_age.into_iter().rev() {
        let page_of = |(at, bay)| (Page::read(zone, Block::read(zone, at)), bay);
        let pages: Vec<(Page, usize)> = equals.into_iter().map(page_of).collect();
        for (page, bay) in sorted_by_name(pages, |(page, _)| page.name) {
            if page.dirty() {
                return Err(Refusal::DirtyPage(page.name));
            }
            leaving.push(page);
            sums[bay] += page.block.size;
            if sums[bay] >= need {
                return Ok(leaving);
            }
        }
    }
    Ok(leaving)
}

/// What a create that needs room has to know.
struct Droppable {
    /// of each bay: its sum, and that with all pages dropped that are not locked
    sums: Vec<usize>,
    without_all: Vec<usize>,
    /// where those pages start, and the numbers of their bays
    by_age: Vec<Vec<(usize, usize)>>,
}

fn droppable(zone: &[u8], layout: &Layout) -> Droppable {
    let (mut sums, mut without_all, mut by_age) = (vec![0], vec![0], vec![Vec::new(); AGES]);
    let (mut bay, clock) = (0, zone[AT_CLOCK]);
    for block in all_blocks(zone, layout) {
        match block.kind {
            Kind::Free => {
                sums[bay] += block.size;
                without_all[bay] += block.size;
            }
            Kind::Fixed => {
                bay += 1;
                sums.push(0);
                without_all.push(0);
            }
            Kind::Relocatable => {}
            Kind::Page => {
                let page = Page::read(zone, block);
                if !page.locked() {
                    without_all[bay] += block.size;
                    by_age[usize::from(page.age(clock))].push((block.at, bay));
                }
            }
        }
    }
    Droppable { sums, without_all, by_age }
}

/// The pages become free blocks; then those that are neighbours are merged, in
/// one walk however many there are.
fn drop_all(zone: &mut [u8], layout: &Layout, leaving: &[Page]) {
    for Page { block, .. } in leaving {
        zone[block.at..block.end()].fill(0);
        put_free(zone, block.at, block.size);
    }
    let mut before: Option<Block> = None;
    let mut at = layout.first;
    while at < layout.length {
        let block = Block::read(zone, at);
        at = block.end();
        before = match (block.kind, before) {
            (Kind::Free, Some(free)) => {
                put32(zone, block.at, 0);
                put_free(zone, free.at, free.size + block.size);
                Some(Block { size: free.size + block.size, ..free })
            }
            (Kind::Free, None) => Some(block),
            _ => None,
        };
    }
}

// ------------------------------------------------------ use, flags, drop

/// "use (name)": steps the clock and stamps the page with it; "Both answer the
/// data offset."
pub fn use_page(zone: &mut [u8], name: u32) -> Answer<u32> {
    let page = open_page(zone, name)?;
    let stamp = u32::from(step_clock(zone));
    put_status(zone, &page, page.status & !STAMP | stamp);
    Ok(page.block.data() as u32)
}

fn put_status(zone: &mut [u8], page: &Page, status: u32) {
    put16(zone, page.block.at + AT_STATUS, status);
}

/// "Other calls set or clear dirty, set or clear lock".
fn set_flag(zone: &mut [u8], name: u32, flag: u32) -> Answer<()> {
    let page = open_page(zone, name)?;
    put_status(zone, &page, page.status | flag);
    Ok(())
}

fn clear_flag(zone: &mut [u8], name: u32, flag: u32) -> Answer<()> {
    let page = open_page(zone, name)?;
    put_status(zone, &page, page.status & !flag);
    Ok(())
}

pub fn set_dirty(zone: &mut [u8], name: u32) -> Answer<()> {
    set_flag(zone, name, DIRTY)
}

pub fn clear_dirty(zone: &mut [u8], name: u32) -> Answer<()> {
    clear_flag(zone, name, DIRTY)
}

pub fn set_lock(zone: &mut [u8], name: u32) -> Answer<()> {
    set_flag(zone, name, LOCK)
}

pub fn clear_lock(zone: &mut [u8], name: u32) -> Answer<()> {
    clear_flag(zone, name, LOCK)
}

/// "and drop, which heeds neither flag".
pub fn drop_page(zone: &mut [u8], name: u32) -> Answer<()> {
    let (layout, page) = open_for(zone, name)?;
    give_up_block(zone, &layout, page.ok_or(Refusal::NameAbsent)?.block);
    Ok(())
}
