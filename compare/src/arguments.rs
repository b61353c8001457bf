//! Calls with numbers about the zone's own: live and dead handles and
//! pointers, names of pages, sizes at the edges of the sums, and anything at all.

use crate::calls::Call;
use crate::limits;
use crate::random::Random;
use crate::zone::{self, Stretch, Target};

/// How many calls there are, and how many that have nothing to do with pages:
/// those come first.
pub const CALLS: usize = 27;
pub const CALLS_WITHOUT_PAGES: usize = 20;

/// How often each call is chosen, in the order of `About::call`; initialize, the
/// last without pages, only where it is asked for.
pub const WEIGHTS: [[u32; CALLS_WITHOUT_PAGES]; 5] = [
    [20, 9, 12, 7, 14, 2, 3, 14, 2, 2, 1, 1, 1, 4, 4, 2, 1, 1, 2, 0],
    [30, 6, 6, 4, 30, 1, 1, 20, 1, 1, 1, 1, 1, 2, 2, 1, 1, 1, 1, 0],
    [10, 30, 8, 20, 12, 1, 1, 10, 1, 1, 1, 1, 1, 3, 3, 1, 1, 1, 1, 0],
    [16, 8, 8, 6, 12, 1, 2, 10, 1, 1, 1, 1, 1, 16, 16, 1, 1, 1, 1, 0],
    STRETCHES,
];

/// The same with calls on pages, of which targets of other calls may be, too.
pub const WITH_PAGES: [[u32; CALLS]; 4] = [
    [6, 4, 4, 4, 5, 2, 3, 9, 3, 2, 1, 1, 1, 3, 3, 1, 1, 1, 2, 0, 24, 12, 5, 4, 5, 4, 4],
    [2, 1, 1, 1, 2, 1, 1, 2, 1, 1, 1, 1, 1, 1, 1, 1, 1, 1, 1, 0, 60, 20, 3, 3, 3, 3, 2],
    [12, 2, 8, 2, 16, 1, 2, 8, 2, 2, 1, 1, 1, 6, 8, 1, 1, 1, 1, 0, 16, 4, 2, 2, 2, 2, 8],
    [3, 3, 2, 3, 3, 6, 16, 20, 14, 1, 1, 1, 1, 1, 1, 1, 1, 1, 1, 0, 14, 10, 3, 3, 3, 3, 3],
];

/// Creates of pages alone.
pub const CREATING: [u32; CALLS] =
    [0, 0, 0, 0, 0, 0, 0, 0, 0, 0, 0, 0, 0, 0, 0, 0, 0, 0, 0, 0, 1, 0, 0, 0, 0, 0, 0];

/// Mostly read, write and view.
#[allow(dead_code)]
pub const STRETCHES: [u32; CALLS_WITHOUT_PAGES] =
    [12, 8, 3, 2, 8, 4, 20, 20, 16, 1, 1, 1, 1, 1, 1, 2, 1, 1, 2, 0];

/// Allocations of relocatable blocks and resizes.
#[allow(dead_code)]
pub const PLACING: [u32; CALLS_WITHOUT_PAGES] =
    [1, 0, 0, 0, 1, 0, 0, 0, 0, 0, 0, 0, 0, 0, 0, 0, 0, 0, 0, 0];

/// Allocations of relocatable blocks alone.
#[allow(dead_code)]
pub const ALLOCATING: [u32; CALLS_WITHOUT_PAGES] =
    [1, 0, 0, 0, 0, 0, 0, 0, 0, 0, 0, 0, 0, 0, 0, 0, 0, 0, 0, 0];

const EDGES: [u32; 26] = [
    0,
    1,
    2,
    3,
    4,
    5,
    8,
    12,
    16,
    20,
    32_759,
    32_760,
    32_761,
    32_762,
    32_763,
    65_532,
    65_536,
    65_552,
    1_048_572,
    1_048_576,
    1_048_580,
    0x4000_0000,
    0x7FFF_FFFF,
    0x8000_0000,
    0xFFFF_FFFC,
    0xFFFF_FFFF,
];

/// Data bytes of a page at the edges of document 02's limit.
const PAGE_EDGES: [u32; 9] =
    [0, 0, 1, 32_755, 32_756, 32_756, 32_757, 32_760, 0xFFFF_FFFF];

/// Names of pages: few, so that they come again.
const NAMES: [u32; 12] =
    [0, 1, 2, 3, 5, 8, 16, 64, 255, 0x0100_0000, 0x8000_0000, 0xFFFF_FFFF];

/// A call and its second buffer. Weights for all calls let targets be names, too.
pub fn a_call(random: &mut Random, buffer: &[u8], weights: &[u32]) -> (Call, Vec<u8>) {
    let which = random.weighted(weights);
    About::of(buffer, weights.len() == CALLS).call(random, which)
}

/// One of each call.
pub fn every_call(random: &mut Random, buffer: &[u8]) -> Vec<(Call, Vec<u8>)> {
    let about = About::of(buffer, true);
    (0..CALLS).map(|which| about.call(random, which)).collect()
}

/// What a well-formed zone holds, for choosing numbers.
#[derive(Default)]
struct About {
    /// with their data sizes
    handles: Vec<(u32, u32)>,
    pointers: Vec<(u32, u32)>,
    pages: Vec<(u32, u32)>,
    /// whether targets may be names
    named: bool,
    starts: Vec<u32>,
    free: Vec<u32>,
    /// of each bay: its sum, and that with all its pages dropped
    sums: Vec<u32>,
    sums_without_pages: Vec<u32>,
    masters: u32,
    length: u32,
    room: u32,
}

fn word(buffer: &[u8], at: u32) -> u32 {
    buffer[at as usize..at as usize + 4].iter().fold(0, |value, &byte| value << 8 | u32::from(byte))
}

impl About {
    fn of(buffer: &[u8], named: bool) -> About {
        let mut about = About { room: buffer.len() as u32, named, ..About::default() };
        if !zone::check(buffer).0 {
            return about;
        }
        about.masters = word(buffer, 8);
        about.length = word(buffer, 0);
        let mut at = word(buffer, 4);
        let (mut sum, mut paged) = (0, 0);
        while at < about.length {
            let header = word(buffer, at);
            let short = 2 * (header >> 16 & 0x3FFF);
            about.starts.push(at);
            at += match header >> 30 {
                0 => {
                    about.free.push(2 * header);
                    sum += 2 * header;
                    2 * header
                }
                1 => {
                    about.pointers.push((at + 4, short - 4));
                    about.sums_without_pages.push(sum + std::mem::take(&mut paged));
                    about.sums.push(std::mem::take(&mut sum));
                    short
                }
                2 => {
                    about.handles.push((header & 0xFFFF, short - 4));
                    short
                }
                _ => {
                    about.pages.push((word(buffer, at + 2), short - 8));
                    paged += short;
                    short
                }
            };
        }
        about.sums.push(sum);
        about.sums_without_pages.push(sum + paged);
        about
    }

    fn call(&self, random: &mut Random, which: usize) -> (Call, Vec<u8>) {
        let call = match which {
            0 => Call::Relocatable(self.size(random)),
            1 => Call::Fixed(self.size(random)),
            2 => Call::FreeHandle(self.handle(random)),
            3 => Call::FreePointer(self.pointer(random)),
            4 => Call::Resize(self.handle(random), self.size(random)),
            5 => Call::Size(self.target(random).0),
            6 => Call::Read(self.stretch(random)),
            7 => Call::Write(self.stretch(random)),
            8 => Call::View(self.stretch(random)),
            9 => Call::Compact,
            10 => Call::Sum,
            11 => Call::Check,
            12 => Call::Length,
            13 => Call::Enlarge(self.amount(random)),
            14 => Call::Shrink(self.amount(random)),
            15 => Call::Roster,
            16 => Call::Census,
            17 => Call::WalkerStart,
            18 => Call::WalkerStep(self.offset(random)),
            19 => self.initialize(random),
            20 => Call::CreatePage(self.new_name(random), self.page_size(random)),
            21 => Call::UsePage(self.name(random)),
            22 => Call::SetDirty(self.name(random)),
            23 => Call::ClearDirty(self.name(random)),
            24 => Call::SetLock(self.name(random)),
            25 => Call::ClearLock(self.name(random)),
            _ => Call::DropPage(self.name(random)),
        };
        if call == Call::Census {
            let words: Vec<u32> = self.free.iter().map(|size| size / 2).collect();
            return (call, limits::any(random, &words));
        }
        let length = self.second(random, &call);
        (call, (0..length).map(|_| random.any() as u8).collect())
    }

    fn handle(&self, random: &mut Random) -> u32 {
        self.handle_and_size(random).0
    }

    fn handle_and_size(&self, random: &mut Random) -> (u32, u32) {
        let live = random.pick_or(&self.handles, (16, 0));
        let other = match random.below(20) {
            0 => random.pick(&EDGES),
            1 => random.below(16 + 4 * self.masters + 4),
            2 => 16 + 4 * random.below(self.masters + 1),
            3 => live.0 + random.pick(&[1, 2, 65_536]),
            4 => random.pick_or(&self.pointers, (16, 0)).0,
            _ => return live,
        };
        (other, live.1)
    }

    fn pointer(&self, random: &mut Random) -> u32 {
        self.pointer_and_size(random).0
    }

    fn pointer_and_size(&self, random: &mut Random) -> (u32, u32) {
        let fixed = random.pick_or(&self.pointers, (64, 0));
        let other = match random.below(16) {
            0 => random.pick(&EDGES),
            1 => random.below(self.length + 4),
            2 => random.pick_or(&self.starts, 16) + random.pick(&[0, 2, 4]),
            3 => fixed.0 + random.pick(&[1, 2, 4, 65_536]),
            _ => return fixed,
        };
        (other, fixed.1)
    }

    fn name(&self, random: &mut Random) -> u32 {
        self.name_and_size(random).0
    }

    fn name_and_size(&self, random: &mut Random) -> (u32, u32) {
        let page = random.pick_or(&self.pages, (0, 0));
        let other = match random.below(16) {
            0 | 1 => random.pick(&NAMES),
            2 => page.0 ^ 1 << random.below(32),
            3 => random.pick_or(&self.handles, (16, 0)).0,
            _ => return page,
        };
        (other, page.1)
    }

    /// A name for a new page; one that is there already, at times.
    fn new_name(&self, random: &mut Random) -> u32 {
        match random.below(8) {
            0 => self.name(random),
            1..=3 => random.any(),
            _ => random.pick(&NAMES),
        }
    }

    /// Data bytes of a new page: few, for a bay's sum, for what pages would leave
    /// in it, for one page's place and the free bytes beside it, edges.
    fn page_size(&self, random: &mut Random) -> u32 {
        let page = random.pick_or(&self.pages, (0, 0)).1;
        let less = 4 + random.below(9);
        match random.below(16) {
            0 => random.pick(&PAGE_EDGES),
            1 => self.size(random),
            2..=4 => random.pick_or(&self.sums_without_pages, 0).saturating_sub(less),
            5 | 6 => random.pick_or(&self.sums, 0).saturating_sub(less),
            7..=9 => page + random.below(5),
            10 | 11 => page + random.pick_or(&self.sums, 0).saturating_sub(random.below(5)),
            12 => page + 8 + random.pick_or(&self.pages, (0, 0)).1,
            _ => random.below(24),
        }
    }

    /// A target and the data size its block may have.
    fn target(&self, random: &mut Random) -> (Target, u32) {
        if self.named && random.once_in(2) {
            let (name, size) = self.name_and_size(random);
            (Target::Name(name), size)
        } else if random.once_in(3) {
            let (pointer, size) = self.pointer_and_size(random);
            (Target::Pointer(pointer), size)
        } else {
            let (handle, size) = self.handle_and_size(random);
            (Target::Handle(handle), size)
        }
    }

    /// Data bytes: small ones, those of free blocks and their sums, edges; bays'
    /// sums, and what is left of them when 32 bytes are taken.
    fn size(&self, random: &mut Random) -> u32 {
        let total: u32 = self.free.iter().sum();
        let some = random.pick_or(&self.free, 0) + random.pick_or(&self.free, 0);
        let data = random.pick_or(&self.handles, (0, 0)).1;
        match random.below(24) {
            0 => random.pick(&EDGES),
            1 => random.any(),
            2 | 3 => total.saturating_sub(random.below(9)),
            4..=6 => some.saturating_sub(random.below(9)),
            7..=9 => random.pick_or(&self.free, 0).saturating_sub(random.below(9)),
            10..=12 => data + random.below(9),
            13 | 14 => data + random.pick_or(&self.free, 0) + random.below(5),
            15 => random.below(total + 1),
            16..=18 => random.below(self.length / 40 + 20),
            19 | 20 => {
                let less = random.pick(&[0, 32]) + random.below(9);
                random.pick_or(&self.sums, 0).saturating_sub(less)
            }
            _ => random.below(20),
        }
    }

    /// A stretch of a block, long ones mostly, or past its end.
    fn stretch(&self, random: &mut Random) -> Stretch {
        let (block, size) = self.target(random);
        let offset = match random.below(10) {
            0 => random.pick(&EDGES),
            1 => size,
            2..=4 => 0,
            _ => random.below(size + 1),
        };
        let count = match random.below(12) {
            0 => random.pick(&EDGES),
            1 => (0xFFFF_FFFF - offset).wrapping_add(random.below(2)),
            2 => size.saturating_sub(offset) + 1,
            3..=7 => size.saturating_sub(offset),
            _ => random.below(size.saturating_sub(offset) + 2),
        };
        Stretch { block, offset, count }
    }

    /// Bytes for enlarge and shrink.
    fn amount(&self, random: &mut Random) -> u32 {
        match random.below(8) {
            0 => random.pick(&EDGES),
            1 => random.any(),
            2 => self.room.wrapping_sub(self.length).wrapping_add(4 * random.below(2)),
            3 => random.pick_or(&self.free, 0) + random.below(6),
            4 => random.below(40),
            _ => 4 * random.below(6),
        }
    }

    /// Where a step may be asked for: a block's start, near it, L, anywhere.
    fn offset(&self, random: &mut Random) -> u32 {
        match random.below(10) {
            0 => random.pick(&EDGES),
            1 => random.below(self.length + 8),
            2 => self.length,
            3 => random.pick_or(&self.starts, 16).wrapping_add(random.pick(&[1, 2, 4, u32::MAX])),
            4 => random.below(16 + 4 * self.masters + 1),
            _ => random.pick_or(&self.starts, 16),
        }
    }

    fn initialize(&self, random: &mut Random) -> Call {
        let length = match random.below(6) {
            0 => random.pick(&EDGES),
            1 => self.room + random.below(5),
            _ => 4 * random.below(self.room / 4 + 2),
        };
        let m = match random.below(6) {
            0 => random.pick(&[8_188, 8_189, 0x4000_0000, 0x4000_0001, 0xFFFF_FFFF]),
            1 => (length.saturating_sub(16) / 4).wrapping_add(random.below(2)),
            _ => random.below(8),
        };
        Call::Initialize(length, m)
    }

    /// The second buffer's length: about what the call needs, or any.
    fn second(&self, random: &mut Random, call: &Call) -> u32 {
        let need = match call {
            Call::Read(stretch) | Call::Write(stretch) => stretch.count.min(40_000),
            Call::Roster => 8 * self.handles.len() as u32,
            _ => return 0,
        };
        match random.below(9) {
            0 => need.saturating_sub(1),
            1 => need + random.below(9),
            2 => need + random.below(400),
            3 => random.below(64),
            4 if random.once_in(2) => 0,
            _ => need,
        }
    }
}
