//! What a set of lists reaches, so that agreement on them says something.

use crate::fixed_ways;
use crate::holes;
use crate::pool;
use crate::records::{BUFFER, RECORD};
use crate::ways;

/// Refusals that each code can be given; 10 cannot come, for zone-run's second
/// buffer has the one byte that is asked for.
const POSSIBLE: [&[usize]; 11] = [
    &[0, 2],
    &[0, 1, 3, 4, 5],
    &[0, 1, 3, 5],
    &[0, 1, 6],
    &[0, 1, 7],
    &[0, 1, 3, 5, 6],
    &[0, 1, 6, 8],
    &[0, 1, 6, 8],
    &[0, 1],
    &[0, 1, 9],
    &[0, 1],
];

/// The end of the masters that are watched for slides: enough of them to see
/// one, few to look at.
const WATCHED: usize = 16 + 4 * 64;

#[derive(Default)]
pub struct Coverage {
    lists: u64,
    /// by code and refusal number
    answers: [[u64; 11]; 11],
    pub skips: u64,
    short_last: u64,
    initialized_again: u64,
    least_zones: u64,
    largest_zones: u64,
    nearly_full: u64,
    many_fixed: u64,
    slides: u64,
    frees: fixed_ways::Counts,
    holes: holes::Counts,
    pool: pool::Counts,
}

fn word(zone: &[u8], at: usize) -> usize {
    zone[at..at + 4].iter().fold(0, |value, &byte| value << 8 | usize::from(byte))
}

/// Free bytes and fixed blocks of a well-formed zone.
fn free_and_fixed(zone: &[u8]) -> (usize, usize) {
    let (mut at, length) = (word(zone, 4), word(zone, 0));
    let (mut free, mut fixed) = (0, 0);
    while at < length {
        let header = word(zone, at);
        let size = if header >> 30 == 0 { 2 * header } else { 2 * (header >> 16 & 0x3FFF) };
        match header >> 30 {
            0 => free += size,
            1 => fixed += 1,
            _ => {}
        }
        at += size;
    }
    (free, fixed)
}

impl Coverage {
    /// The part of a zone to remember before a record is carried out.
    pub fn watched(zone: &[u8]) -> Vec<u8> {
        zone[..word(zone, 0).max(WATCHED)].to_vec()
    }

    /// Notes a record's answer, and the zone after it.
    pub fn note(
        &mut self,
        record: &[u8; RECORD],
        answer: Option<(u32, u32)>,
        before: &[u8],
        zone: &[u8],
    ) {
        let Some((refusal, _)) = answer else {
            self.skips += 1;
            return;
        };
        self.answers[usize::from(record[0])][refusal as usize] += 1;
        if record[0] == 1 {
            let c = word(record, 4) as u32;
            ways::add(&mut self.pool, &pool::of_allocation(before, c, refusal));
        }
        if refusal == 0 {
            self.accepted(record[0], before, zone);
            ways::add(&mut self.holes, &holes_of(record, before));
        }
        if (record[0], refusal) == (4, 0) {
            let pointer = word(record, 4) as u32;
            ways::add(&mut self.frees, &fixed_ways::of_pointer(before, pointer));
        }
    }

    /// Notes the end of a list.
    pub fn end(&mut self, short_last: bool) {
        self.lists += 1;
        self.short_last += u64::from(short_last);
        self.initialized_again += self.answers[0][0].saturating_sub(1);
    }

    /// Accepted initializations.
    pub fn initializations(&self) -> u64 {
        self.answers[0][0]
    }

    /// Calls that meet holes between which the choice decides.
    pub fn holes(&self) -> holes::Counts {
        self.holes
    }

    /// Allocations that find no free master.
    pub fn pool(&self) -> pool::Counts {
        self.pool
    }

    /// Answers by refusal number, 0 for those done, over all codes.
    pub fn refusals(&self) -> [u64; 11] {
        std::array::from_fn(|number| self.answers.iter().map(|answers| answers[number]).sum())
    }

    fn accepted(&mut self, code: u8, before: &[u8], zone: &[u8]) {
        let length = word(zone, 0);
        if code == 0 {
            self.least_zones += u64::from(length == 16);
            self.largest_zones += u64::from(length == BUFFER);
            return;
        }
        let (free, fixed) = free_and_fixed(zone);
        let room = length - word(zone, 4);
        self.nearly_full += u64::from(room > 0 && free <= room / 16);
        self.many_fixed += u64::from(fixed >= 8);
        self.slides += u64::from(slid(before, zone));
    }

    /// Adds what other lists met.
    pub fn join(&mut self, other: &Coverage) {
        for (mine, theirs) in self.answers.iter_mut().flatten().zip(other.answers.iter().flatten())
        {
            *mine += theirs;
        }
        self.lists += other.lists;
        self.skips += other.skips;
        self.short_last += other.short_last;
        self.initialized_again += other.initialized_again;
        self.least_zones += other.least_zones;
        self.largest_zones += other.largest_zones;
        self.nearly_full += other.nearly_full;
        self.many_fixed += other.many_fixed;
        self.slides += other.slides;
        ways::add(&mut self.frees, &other.frees);
        ways::add(&mut self.holes, &other.holes);
        ways::add(&mut self.pool, &other.pool);
    }

    /// What was never reached.
    pub fn missing(&self) -> Vec<String> {
        let mut missing = Vec::new();
        for (code, refusals) in POSSIBLE.iter().enumerate() {
            for &refusal in refusals.iter().filter(|&&refusal| self.answers[code][refusal] == 0) {
                missing.push(format!("code {code} answered {refusal}"));
            }
        }
        for (name, count) in self.features() {
            if count == 0 {
                missing.push(name.to_string());
            }
        }
        missing
    }

    fn features(&self) -> Vec<(&'static str, u64)> {
        let mut features = vec![
            ("initialized again in mid-list", self.initialized_again),
            ("zones of 16 bytes", self.least_zones),
            ("zones of 65,536 bytes", self.largest_zones),
            ("calls that leave at most a sixteenth free", self.nearly_full),
            ("calls beside 8 or more fixed blocks", self.many_fixed),
            ("calls that slide a block", self.slides),
            ("records skipped", self.skips),
            ("lists with a short last record", self.short_last),
            ("frees by a pointer that is L", self.frees[0]),
            ("frees by a pointer where the next block begins", self.frees[1]),
        ];
        features.extend(holes::WAYS.into_iter().zip(self.holes));
        features.extend(pool::WAYS.into_iter().zip(self.pool));
        features
    }

    pub fn print(&self) {
        println!("{} lists; code: done, refused by number", self.lists);
        for (code, answers) in self.answers.iter().enumerate() {
            let refused = (1..11).filter(|&number| answers[number] > 0);
            let refused: Vec<String> =
                refused.map(|number| format!("{number}: {}", answers[number])).collect();
            println!("  {code:>2}: {:>6}, {}", answers[0], refused.join(", "));
        }
        for (name, count) in self.features() {
            println!("  {name}: {count}");
        }
    }
}

/// The holes that an accepted record meets.
fn holes_of(record: &[u8; RECORD], before: &[u8]) -> holes::Counts {
    let (a, b) = (word(record, 4) as u32, word(record, 8) as u32);
    match record[0] {
        1 => holes::of_allocation(before, a),
        5 => holes::of_resize(before, a, b),
        _ => holes::Counts::default(),
    }
}

/// Whether a watched live master points elsewhere than before.
fn slid(before: &[u8], zone: &[u8]) -> bool {
    let (old_first, first) = (word(before, 4), word(zone, 4));
    (16..old_first.min(WATCHED)).step_by(4).any(|master| {
        let (old, new) = (word(before, master), word(zone, master));
        old >= old_first && new >= first && old != new
    })
}
