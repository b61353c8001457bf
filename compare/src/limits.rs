//! Limits of strata to lend to a census (document 02, U7): none, the powers of
//! two, a mill's own, and such that break a rule.

use crate::model::{Item, Picture};
use crate::random::Random;
use crate::zone::{self, STRATA};
use std::collections::BTreeSet;

pub type Limits = [u32; STRATA];

const LENGTH: usize = 4 * STRATA;
const HIGHEST: u32 = 524_288;

/// Lengths that are neither 0 nor 76.
const WRONG_LENGTHS: [usize; 12] = [1, 2, 4, 19, 38, 72, 75, 77, 80, 152, 4_096, 76_000];

pub fn powers_of_two() -> Limits {
    std::array::from_fn(|i| 1 << i)
}

/// As they stand in a lent buffer: high byte first.
pub fn bytes_of(limits: &Limits) -> Vec<u8> {
    limits.iter().flat_map(|limit| limit.to_be_bytes()).collect()
}

/// The words of each free block; none where the bytes are no zone.
pub fn free_words(zone: &[u8]) -> Vec<u32> {
    if !zone::check(zone).0 {
        return vec![];
    }
    let words = |item: &Item| match item {
        Item::Free(size) => Some(*size as u32 / 2),
        _ => None,
    };
    Picture::decode(zone).items.iter().filter_map(words).collect()
}

/// Limits that rise strictly from `first` on: close together or far apart, some of
/// them about the words of free blocks.
pub fn rising_from(random: &mut Random, first: u32, words: &[u32]) -> Limits {
    let reach = random.pick(&[20, 40, 1_000, HIGHEST]);
    let mut later = BTreeSet::new();
    if random.once_in(4) {
        later.insert(HIGHEST);
    }
    while later.len() < STRATA - 1 {
        let limit = match random.below(4) {
            0 => 1 << random.below(20),
            1 => random.pick_or(words, 4) + random.below(4),
            _ => first + random.between(1, reach),
        };
        if first < limit && limit <= HIGHEST {
            later.insert(limit);
        }
    }
    let mut all = std::iter::once(first).chain(later);
    std::array::from_fn(|_| all.next().expect("as many as there are strata"))
}

/// A mill's own limits, within the rules.
pub fn a_mill(random: &mut Random, words: &[u32]) -> Limits {
    let first = random.between(1, 2);
    rising_from(random, first, words)
}

/// The limit at `place`, which is not the first, as high as the one before it, or
/// lower.
fn not_rising(random: &mut Random, mut limits: Limits, place: usize, equal: bool) -> Limits {
    let before = limits[place - 1];
    limits[place] = if equal { before } else { random.below(before) };
    limits
}

fn with_last(mut limits: Limits, last: u32) -> Limits {
    limits[STRATA - 1] = last;
    limits
}

/// A mill's bytes, cut short or gone on with.
fn of_length(random: &mut Random, length: usize, words: &[u32]) -> Vec<u8> {
    let mut bytes = bytes_of(&a_mill(random, words));
    while bytes.len() < length {
        bytes.push(random.any() as u8);
    }
    bytes.truncate(length);
    bytes
}

fn a_wrong_length(random: &mut Random) -> usize {
    match random.below(400) as usize {
        0 | LENGTH => LENGTH + 1,
        length if random.once_in(2) => length,
        _ => random.pick(&WRONG_LENGTHS),
    }
}

/// Limits that break one rule, mostly; with the low byte first; anything at all.
fn a_broken_mill(random: &mut Random, words: &[u32]) -> Vec<u8> {
    let mill = a_mill(random, words);
    let place = random.between(1, STRATA as u32 - 1) as usize;
    let broken = match random.below(8) {
        0 => {
            let length = a_wrong_length(random);
            return of_length(random, length, words);
        }
        1 => rising_from(random, 0, words),
        2 => {
            let first = random.pick(&[3, 3, 4, 100, 500_000]);
            rising_from(random, first, words)
        }
        3 => not_rising(random, mill, place, true),
        4 => not_rising(random, mill, place, false),
        5 => with_last(mill, random.pick(&[HIGHEST + 1, HIGHEST + 2, 1 << 24, 1 << 31, u32::MAX])),
        6 => mill.map(u32::swap_bytes),
        _ => std::array::from_fn(|_| random.any()),
    };
    bytes_of(&broken)
}

/// What a census may be lent, beside a zone with free blocks of so many words.
pub fn any(random: &mut Random, words: &[u32]) -> Vec<u8> {
    match random.below(8) {
        0 | 1 => vec![],
        2 => bytes_of(&powers_of_two()),
        3 | 4 => a_broken_mill(random, words),
        _ => bytes_of(&a_mill(random, words)),
    }
}

/// One of each kind: accepted ones, then each rule broken, at each place.
pub fn each_kind(random: &mut Random, words: &[u32]) -> Vec<Vec<u8>> {
    let mut all = vec![vec![], bytes_of(&powers_of_two())];
    all.extend([1, 2, 0, 3].map(|first| bytes_of(&rising_from(random, first, words))));
    all.extend(WRONG_LENGTHS.map(|length| of_length(random, length, words)));
    let mill = a_mill(random, words);
    for place in 1..STRATA {
        all.extend([true, false].map(|equal| bytes_of(&not_rising(random, mill, place, equal))));
    }
    all.extend([HIGHEST, HIGHEST + 1].map(|last| bytes_of(&with_last(mill, last))));
    all.push(a_broken_mill(random, words));
    all
}
