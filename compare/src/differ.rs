//! One call on both sides: every answer and every byte.

use crate::arena::{Arena, Place};
use crate::calls::{ask_zone, Call, Reply};
use crate::fixed_ways;
use crate::foreign::{ask_archive, without_number};
use crate::holes;
use crate::limit_ways;
use crate::limits;
use crate::model::Picture;
use crate::page_ways;
use crate::pool;
use crate::random::Random;
use crate::rules;
use crate::strata;
use crate::verdict::{difference, Left};
use crate::ways;
use crate::zone::{self, Target};

/// How many functions there are, and how many refusal numbers, 0 for none.
const FUNCTIONS: usize = 27;
pub const NUMBERS: usize = 15;

/// Largest buffers that are lent.
const MOST_ZONE: usize = 1_048_576 + 4_096;
const MOST_SECOND: usize = 80_000;

pub const NAMES: [&str; FUNCTIONS] = [
    "initialize",
    "allocate_relocatable",
    "allocate_fixed",
    "free_handle",
    "free_pointer",
    "resize",
    "size",
    "read",
    "write",
    "view",
    "compact",
    "sum",
    "check",
    "length",
    "enlarge",
    "shrink",
    "roster",
    "census",
    "walker_start",
    "walker_step",
    "create_page",
    "use_page",
    "set_dirty",
    "clear_dirty",
    "set_lock",
    "clear_lock",
    "drop_page",
];

fn which(call: &Call) -> usize {
    match call {
        Call::Initialize(..) => 0,
        Call::Relocatable(_) => 1,
        Call::Fixed(_) => 2,
        Call::FreeHandle(_) => 3,
        Call::FreePointer(_) => 4,
        Call::Resize(..) => 5,
        Call::Size(_) => 6,
        Call::Read(_) => 7,
        Call::Write(_) => 8,
        Call::View(_) => 9,
        Call::Compact => 10,
        Call::Sum => 11,
        Call::Check => 12,
        Call::Length => 13,
        Call::Enlarge(_) => 14,
        Call::Shrink(_) => 15,
        Call::Roster => 16,
        Call::Census => 17,
        Call::WalkerStart => 18,
        Call::WalkerStep(_) => 19,
        Call::CreatePage(..) => 20,
        Call::UsePage(_) => 21,
        Call::SetDirty(_) => 22,
        Call::ClearDirty(_) => 23,
        Call::SetLock(_) => 24,
        Call::ClearLock(_) => 25,
        Call::DropPage(_) => 26,
    }
}

/// The functions that take a pointer, as `which` numbers them.
pub const BY_POINTER: [usize; 5] = [4, 6, 7, 8, 9];

/// The pointer that a call names its block by.
fn pointer_of(call: &Call) -> Option<u32> {
    match *call {
        Call::FreePointer(pointer) | Call::Size(Target::Pointer(pointer)) => Some(pointer),
        Call::Read(stretch) | Call::Write(stretch) | Call::View(stretch) => match stretch.block {
            Target::Pointer(pointer) => Some(pointer),
            _ => None,
        },
        _ => None,
    }
}

/// A stretch of so many bytes is a long one.
pub const LONG: u32 = 1_000;

/// What was compared.
#[derive(Default)]
pub struct Tally {
    /// by function: calls done, and refused by number
    pub answers: [[u64; NUMBERS]; FUNCTIONS],
    /// long stretches read or written
    pub long_by_handle: u64,
    pub long_by_pointer: u64,
    pub long_by_name: u64,
    /// rosters of zones whose blocks do not stand by rising handle
    pub rosters_apart: u64,
    /// calls refused with 1 for a fixed block's second word
    pub second_words: u64,
    /// by function of `BY_POINTER`, done
    pub pointers: [fixed_ways::Counts; BY_POINTER.len()],
    pub holes: holes::Counts,
    pub pool: pool::Counts,
    pub pages: page_ways::Counts,
    pub limits: limit_ways::Counts,
    /// sizes of a free block by stratum: by the formula, and by mills' limits
    pub strata: [strata::Counts; 2],
}

impl Tally {
    fn note(&mut self, zone: &[u8], call: &Call, second: &[u8], refusal: u32, after: &[u8]) {
        self.answers[which(call)][refusal as usize] += 1;
        // before an initialize there may be no zone
        if refusal != 1 && !matches!(call, Call::Initialize(..)) {
            self.pages.add(&page_ways::of_call(zone, call, refusal, after));
        }
        if let (Call::Roster, 0) = (call, refusal) {
            self.rosters_apart += u64::from(!Picture::decode(zone).handles().is_sorted());
        }
        if let Call::Census = call {
            let words = limits::free_words(zone);
            ways::add(&mut self.limits, &limit_ways::of_census(&words, second, refusal));
        }
        if refusal == 1 {
            self.second_words += u64::from(rules::broken_rule(zone) == Some(rules::SECOND_WORD));
        }
        if refusal == 0 {
            ways::add(&mut self.holes, &holes_of(zone, call));
            self.note_pointer(zone, call);
        }
        if let Call::Relocatable(c) = *call {
            ways::add(&mut self.pool, &pool::of_allocation(zone, c, refusal));
        }
        if let (Call::Read(stretch) | Call::Write(stretch), 0) = (call, refusal) {
            let long = u64::from(stretch.count >= LONG);
            match stretch.block {
                Target::Handle(_) => self.long_by_handle += long,
                Target::Pointer(_) => self.long_by_pointer += long,
                Target::Name(_) => self.long_by_name += long,
            }
        }
    }

    fn note_pointer(&mut self, zone: &[u8], call: &Call) {
        let Some(pointer) = pointer_of(call) else { return };
        if let Some(place) = BY_POINTER.iter().position(|&function| function == which(call)) {
            ways::add(&mut self.pointers[place], &fixed_ways::of_pointer(zone, pointer));
        }
    }

    pub fn add(&mut self, other: &Tally) {
        let more = other.answers.iter().flatten();
        self.answers.iter_mut().flatten().zip(more).for_each(|(all, more)| *all += more);
        self.long_by_handle += other.long_by_handle;
        self.long_by_pointer += other.long_by_pointer;
        self.long_by_name += other.long_by_name;
        self.rosters_apart += other.rosters_apart;
        self.second_words += other.second_words;
        for (mine, theirs) in self.pointers.iter_mut().zip(&other.pointers) {
            ways::add(mine, theirs);
        }
        ways::add(&mut self.holes, &other.holes);
        ways::add(&mut self.pool, &other.pool);
        self.pages.add(&other.pages);
        ways::add(&mut self.limits, &other.limits);
        for (mine, theirs) in self.strata.iter_mut().zip(&other.strata) {
            ways::add(mine, theirs);
        }
    }
}

/// The holes that an accepted call meets.
fn holes_of(zone: &[u8], call: &Call) -> holes::Counts {
    match *call {
        Call::Relocatable(c) => holes::of_allocation(zone, c),
        Call::Resize(handle, c) => holes::of_resize(zone, handle, c),
        _ => holes::Counts::default(),
    }
}

pub struct Differ {
    pub random: Random,
    pub tally: Tally,
    pub seed: u64,
    pub steps: u64,
    trace: bool,
    zones: Arena,
    seconds: Arena,
}

impl Differ {
    pub fn new(seed: u64, trace: bool) -> Differ {
        Differ {
            random: Random::new(seed),
            tally: Tally::default(),
            seed,
            steps: 0,
            trace,
            zones: Arena::new(MOST_ZONE),
            seconds: Arena::new(MOST_SECOND),
        }
    }

    fn a_place(&mut self) -> Place {
        match self.random.below(3) {
            0 => Place::Start,
            1 => Place::End,
            _ => Place::Between(self.random.below(64) as usize),
        }
    }

    /// Carries out the call on `buffer` by the Rust implementation, and on a
    /// lent copy by the archive; the first difference as text.
    pub fn compare(&mut self, buffer: &mut [u8], call: &Call, second: &[u8]) -> Result<(), String> {
        self.steps += 1;
        if self.trace {
            eprintln!("seed {} step {} {call:?}", self.seed, self.steps);
        }
        let before = buffer.to_vec();
        let mut ours = second.to_vec();
        let refusal = number(buffer, call);
        let reply = ask_rust(buffer, call, &mut ours);
        self.tally.note(&before, call, second, reply.refusal.unwrap_or(0).max(refusal), buffer);

        let (place, other_place) = (self.a_place(), self.a_place());
        let by_pointer = self.random.pick(&[1, 1, 3, 0xFFFF_FFFF]);
        let zone = self.zones.lend(&before, place);
        let lent = self.seconds.lend(second, other_place);
        // SAFETY: both parts are lent from arenas that nothing else uses now.
        let theirs = unsafe { ask_archive(zone, call, lent, by_pointer) };
        let wrong = self.judge(&Left { reply: &reply, zone: buffer, second: &ours }, &theirs);
        match wrong {
            None => Ok(()),
            Some(wrong) => Err(self.story(&wrong, call, &before, second, &reply, &theirs)),
        }
    }

    /// What is not as it should be.
    fn judge(&mut self, wanted: &Left, theirs: &Reply) -> Option<String> {
        let got = Left { reply: theirs, zone: self.zones.now(), second: self.seconds.now() };
        if let Some(wrong) = difference(wanted, &got) {
            return Some(wrong);
        }
        if !self.zones.guards_stay() || !self.seconds.guards_stay() {
            return Some("a byte beside a buffer changed".into());
        }
        None
    }

    fn story(
        &mut self,
        wrong: &str,
        call: &Call,
        before: &[u8],
        second: &[u8],
        reply: &Reply,
        theirs: &Reply,
    ) -> String {
        let (seed, step) = (self.seed, self.steps);
        let (after, second_after) = (hex(self.zones.now()), hex(self.seconds.now()));
        let mut story = format!("seed {seed} step {step}: {wrong}\ncall {call:?}\n");
        story += &format!("the Rust implementation {:?} {:?}\n", reply.refusal, reply.values);
        story += &format!("the archive {:?} {:?}\n", theirs.refusal, theirs.values);
        story += &format!("the zone before, {} bytes:\n{}", before.len(), hex(before));
        story += &format!("the archive's zone after:\n{after}");
        story += &format!("second buffer before, {} bytes:\n{}", second.len(), hex(second));
        story + &format!("the archive's second buffer after:\n{second_after}")
    }
}

/// The refusal number of a view and a walker's start, which carry none; 1 for
/// a check that says no.
fn number(buffer: &mut [u8], call: &Call) -> u32 {
    match *call {
        Call::View(stretch) => zone::numbers(zone::read(buffer, stretch, &mut [0; 32_768])).0,
        Call::WalkerStart | Call::Check => zone::numbers(zone::length(buffer)).0,
        _ => 0,
    }
}

/// The Rust implementation's answer, with what the C interface shows of it.
fn ask_rust(buffer: &mut [u8], call: &Call, second: &mut [u8]) -> Reply {
    match *call {
        Call::View(stretch) => {
            let part = zone::view(buffer, stretch);
            let offset = part.as_ptr() as usize - buffer.as_ptr() as usize;
            without_number(&[offset as u32, part.len() as u32])
        }
        Call::WalkerStart => without_number(&ask_zone(buffer, call, second).values),
        _ => ask_zone(buffer, call, second),
    }
}

/// 32 bytes a line; lines of zeros alone are left out, the last one apart.
fn hex(bytes: &[u8]) -> String {
    let mut text = String::new();
    let last = bytes.len().saturating_sub(1) / 32;
    for (i, line) in bytes.chunks(32).enumerate() {
        if i < last && i > 0 && line.iter().all(|&byte| byte == 0) {
            continue;
        }
        text += &format!("{:>8}:", 32 * i);
        for (j, byte) in line.iter().enumerate() {
            text += &format!("{}{byte:02X}", if j % 4 == 0 { " " } else { "" });
        }
        text.push('\n');
    }
    text
}
