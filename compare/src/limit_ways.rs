//! What censuses show of the limits that they are lent (document 02, U7): without
//! them a comparison would not tell those strata and rules from others.

use crate::zone::STRATA;

/// What a census shows, in the order of `Counts`. A rule is broken alone: the
/// other ones are kept.
pub const WAYS: [&str; 17] = [
    "censuses by no limits",
    "censuses by the powers of two",
    "censuses by other limits, the first 1",
    "censuses by other limits, the first 2",
    "censuses by other limits, the last 524,288",
    "censuses by other limits, and a free block has as many words as one of them",
    "censuses by other limits, and a free block has one word less than one of them",
    "censuses by other limits, and a free block has two words less than one of them",
    "censuses by other limits, two free blocks in one stratum",
    "censuses refused 14: fewer than 76 bytes",
    "censuses refused 14: more than 76 bytes",
    "censuses refused 14: the first limit 0",
    "censuses refused 14: the first limit above 2",
    "censuses refused 14: two limits equal",
    "censuses refused 14: a limit below the one before it",
    "censuses refused 14: the last limit above 524,288",
    "censuses refused 1 beside limits that break a rule",
];

/// How often each way was met.
pub type Counts = [u64; WAYS.len()];

const ACCEPTED: usize = 9;

/// Which rules the bytes break, in the order of the ways.
fn broken(lent: &[u8], limits: &[u32]) -> Vec<bool> {
    let later = || limits.windows(2);
    vec![
        lent.len() < 4 * STRATA,
        lent.len() > 4 * STRATA,
        limits.first() == Some(&0),
        limits.first() > Some(&2),
        later().any(|pair| pair[1] == pair[0]),
        later().any(|pair| pair[1] < pair[0]),
        limits.last() > Some(&524_288),
    ]
}

fn accepted(words: &[u32], limits: &[u32]) -> Vec<bool> {
    if limits.is_empty() {
        return vec![true];
    }
    if limits.iter().enumerate().all(|(i, &limit)| limit == 1 << i) {
        return vec![false, true];
    }
    let less = |by: u32| words.iter().any(|one| limits.contains(&(one + by)));
    let reached = |one: u32| limits.iter().filter(|&&limit| limit <= one).count();
    let mut strata: Vec<usize> = words.iter().map(|&one| reached(one)).collect();
    strata.sort();
    vec![
        false,
        false,
        limits[0] == 1,
        limits[0] == 2,
        limits.last() == Some(&524_288),
        less(0),
        less(1),
        less(2),
        strata.windows(2).any(|pair| pair[0] == pair[1]),
    ]
}

/// What a census of a zone with free blocks of these sizes in words shows, by its
/// refusal number, 0 if done.
pub fn of_census(words: &[u32], lent: &[u8], refusal: u32) -> Counts {
    let number = |bytes: &[u8]| bytes.iter().fold(0, |all, &byte| all << 8 | u32::from(byte));
    let limits: Vec<u32> = lent.chunks(4).map(number).collect();
    let mut counts = Counts::default();
    let mut note = |from: usize, shown: Vec<bool>| {
        for (count, shown) in counts[from..].iter_mut().zip(shown) {
            *count = u64::from(shown);
        }
    };
    let rules = broken(lent, &limits);
    let how_many = rules.iter().filter(|&&broken| broken).count();
    match refusal {
        0 => note(0, accepted(words, &limits)),
        14 if rules[0] || rules[1] => note(ACCEPTED, rules[..2].to_vec()),
        14 if how_many == 1 => note(ACCEPTED, rules),
        1 => note(WAYS.len() - 1, vec![!lent.is_empty() && how_many > 0]),
        _ => {}
    }
    counts
}
