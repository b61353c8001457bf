//! Which calls show what of pages (document 02, U5): without them a comparison
//! would not tell the dropping by age and name, its refusals, the clock and the
//! slides from other ways to do them, or not to.

use crate::calls::Call;
use crate::holes;
use crate::ways;
use crate::zone::Target;

/// What a create shows.
pub const CREATES: [&str; 22] = [
    "creates that drop no page",
    "creates that drop one page",
    "creates that drop several pages",
    "creates that drop a page of a bay that does not help",
    "creates that drop a page and slide another block",
    "creates that pass over a locked page",
    "creates that drop the smaller of two names of one age, though it stands higher",
    "creates that drop a page of a larger stamp and keep one of a smaller",
    "creates of 0 bytes",
    "creates of 32,756 bytes",
    "creates above a lower hole that is big enough but larger",
    "creates with two tightest holes",
    "creates refused 12",
    "creates refused 12, a clean page before the dirty one",
    "creates refused 12, though the clean pages would do",
    "creates refused 12, the dirty page's name is 0",
    "creates refused 5, and a dirty page would be reached",
    "creates refused 5, though it would do with the locked pages",
    "creates refused 11",
    "creates refused 11, too large as well",
    "creates refused 3",
    "creates that take the clock from 255 to 0",
];

/// What other calls show.
pub const OTHERS: [&str; 21] = [
    "uses that take the clock from 255 to 0",
    "uses of a page that stays dirty or locked",
    "drops of a dirty or locked page",
    "uses refused 13",
    "set_dirty refused 13",
    "clear_dirty refused 13",
    "set_lock refused 13",
    "clear_lock refused 13",
    "drops refused 13",
    "sizes refused 13",
    "reads refused 13",
    "writes refused 13",
    "views of no page",
    "compacts that slide a page",
    "allocations of a relocatable block that slide a page",
    "allocations that add masters and slide a page up",
    "allocations that add masters and slide a page down",
    "allocations of a fixed block that slide a page",
    "resizes that slide a page up",
    "resizes that slide a page down",
    "shrinks that slide a page",
];

/// How often each way was met.
#[derive(Default)]
pub struct Counts {
    creates: [u64; CREATES.len()],
    others: [u64; OTHERS.len()],
}

impl Counts {
    pub fn add(&mut self, more: &Counts) {
        ways::add(&mut self.creates, &more.creates);
        ways::add(&mut self.others, &more.others);
    }

    pub fn never_met(&self) -> Vec<&'static str> {
        [ways::never_met(CREATES, &self.creates), ways::never_met(OTHERS, &self.others)].concat()
    }

    /// Each way with its count.
    pub fn told(&self) -> impl Iterator<Item = (&'static str, u64)> {
        let creates = CREATES.into_iter().zip(self.creates);
        creates.chain(OTHERS.into_iter().zip(self.others))
    }
}

#[derive(Clone, Copy)]
struct Page {
    at: usize,
    size: usize,
    bay: usize,
    name: u32,
    flags: u8,
    stamp: u8,
}

impl Page {
    fn dirty(&self) -> bool {
        self.flags & 0x80 != 0
    }

    fn locked(&self) -> bool {
        self.flags & 0x40 != 0
    }
}

/// A well-formed zone, as far as pages go.
struct Zone {
    clock: u8,
    masters: usize,
    free_master: bool,
    /// of each bay
    sums: Vec<usize>,
    pages: Vec<Page>,
    /// where the other blocks that slide stand, by handle
    handles: Vec<(usize, usize)>,
}

fn number(zone: &[u8], at: usize, width: usize) -> usize {
    zone[at..at + width].iter().fold(0, |value, &byte| value << 8 | usize::from(byte))
}

impl Zone {
    fn read(zone: &[u8]) -> Zone {
        let (mut sums, mut pages, mut handles) = (vec![0], Vec::new(), Vec::new());
        let (mut at, length) = (number(zone, 4, 4), number(zone, 0, 4));
        while at < length {
            let bay = sums.len() - 1;
            let short = 2 * (number(zone, at, 2) & 0x3FFF);
            let size = if zone[at] >> 6 == 0 { 2 * number(zone, at, 4) } else { short };
            match zone[at] >> 6 {
                0 => sums[bay] += size,
                1 => sums.push(0),
                2 => handles.push((number(zone, at + 2, 2), at)),
                _ => {
                    let name = number(zone, at + 2, 4) as u32;
                    let (flags, stamp) = (zone[at + 6], zone[at + 7]);
                    pages.push(Page { at, size, bay, name, flags, stamp });
                }
            }
            at += size;
        }
        let (masters, free_master) = (number(zone, 8, 4), number(zone, 12, 2) != 0);
        Zone { clock: zone[14], masters, free_master, sums, pages, handles }
    }

    fn page(&self, name: u32) -> Option<&Page> {
        self.pages.iter().find(|page| page.name == name)
    }

    /// A page's place in the order of dropping, the first one least.
    fn turn(&self, page: &Page) -> (u8, u32) {
        (255 - self.clock.wrapping_sub(page.stamp), page.name)
    }

    /// Whether the need is met without these pages.
    fn does_without(&self, need: usize, goes: impl Fn(&Page) -> bool) -> bool {
        let mut sums = self.sums.clone();
        for page in self.pages.iter().filter(|page| goes(page)) {
            sums[page.bay] += page.size;
        }
        sums.iter().any(|&sum| sum >= need)
    }

    /// The least and the most that a page of both zones went, down counted as
    /// negative.
    fn slides(&self, after: &Zone) -> (isize, isize) {
        let ways = self
            .pages
            .iter()
            .filter_map(|page| after.page(page.name).map(|now| now.at as isize - page.at as isize));
        ways.fold((0, 0), |(least, most), way| (least.min(way), most.max(way)))
    }

    fn slides_handle(&self, after: &Zone) -> bool {
        self.handles.iter().any(|block| !after.handles.contains(block))
    }
}

/// A create of a page of this name, for c bytes, and its refusal number.
struct Create {
    name: u32,
    c: u32,
    refusal: u32,
}

fn of_create(zone: &[u8], before: &Zone, after: &Zone, create: Create) -> [bool; CREATES.len()] {
    let Create { name, c, refusal } = create;
    let done = refusal == 0;
    let need = (8 + u64::from(c)).div_ceil(4) as usize * 4;
    let turn = |page: &Page| before.turn(page);
    let dropped: Vec<Page> =
        before.pages.iter().filter(|page| after.page(page.name).is_none()).copied().collect();
    let kept =
        || before.pages.iter().filter(|page| !page.locked() && after.page(page.name).is_some());
    let locked = || before.pages.iter().filter(|page| page.locked());
    let bay = after.page(name).map(|page| page.bay);
    let pairs = |test: fn(&Page, &Page) -> bool| {
        dropped.iter().any(|gone| kept().any(|page| test(gone, page)))
    };
    let slid = before.slides(after) != (0, 0) || before.slides_handle(after);
    let holes = if done && dropped.is_empty() { holes::of_need(zone, need) } else { [0, 0] };
    let first_dirty = before
        .pages
        .iter()
        .filter(|page| page.dirty() && !page.locked())
        .min_by_key(|page| turn(page));
    let clean_first = first_dirty.is_some_and(|dirty| {
        before.pages.iter().any(|page| !page.locked() && turn(page) < turn(dirty))
    });
    [
        done && dropped.is_empty(),
        done && dropped.len() == 1,
        done && dropped.len() > 1,
        done && dropped.iter().any(|page| Some(page.bay) != bay),
        done && !dropped.is_empty() && slid,
        done && locked().any(|page| dropped.iter().any(|gone| turn(page) < turn(gone))),
        done && pairs(|gone, page| gone.stamp == page.stamp && gone.at > page.at),
        done && pairs(|gone, page| gone.stamp > page.stamp),
        done && c == 0,
        done && c == 32_756,
        holes[0] > 0,
        holes[1] > 0,
        refusal == 12,
        refusal == 12 && clean_first,
        refusal == 12 && before.does_without(need, |page| !page.locked() && !page.dirty()),
        refusal == 12 && first_dirty.is_some_and(|page| page.name == 0),
        refusal == 5 && first_dirty.is_some(),
        refusal == 5 && before.does_without(need, |_| true),
        refusal == 11,
        refusal == 11 && c > 32_756,
        refusal == 3,
        done && before.clock == 255,
    ]
}

fn of_other(before: &Zone, after: &Zone, call: &Call, done: bool) -> [bool; OTHERS.len()] {
    let absent = |name| before.page(name).is_none();
    let absent_target = |target| matches!(target, Target::Name(name) if absent(name));
    let flagged = |name| done && before.page(name).is_some_and(|page| page.flags != 0);
    let (down, up) = before.slides(after);
    let allocation = matches!(call, Call::Relocatable(_));
    let grows = after.masters > before.masters;
    let resize = matches!(call, Call::Resize(..));
    [
        matches!(call, Call::UsePage(_)) && done && before.clock == 255,
        matches!(*call, Call::UsePage(name) if flagged(name)),
        matches!(*call, Call::DropPage(name) if flagged(name)),
        matches!(*call, Call::UsePage(name) if absent(name)),
        matches!(*call, Call::SetDirty(name) if absent(name)),
        matches!(*call, Call::ClearDirty(name) if absent(name)),
        matches!(*call, Call::SetLock(name) if absent(name)),
        matches!(*call, Call::ClearLock(name) if absent(name)),
        matches!(*call, Call::DropPage(name) if absent(name)),
        matches!(*call, Call::Size(target) if absent_target(target)),
        matches!(*call, Call::Read(stretch) if absent_target(stretch.block)),
        matches!(*call, Call::Write(stretch) if absent_target(stretch.block)),
        matches!(*call, Call::View(stretch) if absent_target(stretch.block)),
        matches!(call, Call::Compact) && down < 0,
        allocation && before.free_master && down < 0,
        allocation && grows && up > 0,
        allocation && grows && down < 0,
        matches!(call, Call::Fixed(_)) && down < 0,
        resize && up > 0,
        resize && down < 0,
        matches!(call, Call::Shrink(_)) && down < 0,
    ]
}

/// What a call on a well-formed zone shows, by its refusal number, 0 if done.
pub fn of_call(zone: &[u8], call: &Call, refusal: u32, zone_after: &[u8]) -> Counts {
    let (before, after) = (Zone::read(zone), Zone::read(zone_after));
    let creates = match *call {
        Call::CreatePage(name, c) => of_create(zone, &before, &after, Create { name, c, refusal }),
        _ => [false; CREATES.len()],
    };
    let others = of_other(&before, &after, call, refusal == 0);
    Counts { creates: creates.map(u64::from), others: others.map(u64::from) }
}
