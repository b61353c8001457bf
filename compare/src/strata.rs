//! Every size that a free block can have, each in a zone of that block alone:
//! the stratum in which the archive's census counts it, by the formula (document
//! 02, U4) and by a mill's limits (U7).

use crate::c_interface::nafelode_census;
use crate::limits::{bytes_of, Limits};
use crate::model::census::{by_formula, by_limits};
use crate::zone::{self, LENGTH_LIMIT, STRATA};

/// How many sizes were counted in each stratum.
pub type Counts = [u64; STRATA];

const HEADER: usize = 16;
const LEAST: usize = 4;

/// The lengths of the zones in one half: every other length.
pub fn lengths(half: usize) -> impl Iterator<Item = usize> {
    (HEADER + LEAST..=LENGTH_LIMIT).step_by(4).skip(half).step_by(2)
}

/// The lengths of the zones whose one block has as many words as a limit, or up to
/// two more or less.
pub fn lengths_about(limits: &Limits) -> impl Iterator<Item = usize> + '_ {
    let words = limits.iter().flat_map(|&limit| limit.saturating_sub(2)..=limit + 2);
    let lengths = words.map(|words| HEADER + 2 * words as usize);
    lengths.filter(|length| length % 4 == 0 && (HEADER + LEAST..=LENGTH_LIMIT).contains(length))
}

/// Makes zeros, or such a zone of another length, a zone of `length` bytes with
/// no master, in which all is free.
fn put(zone: &mut [u8], length: usize) {
    let fields = [length, HEADER, 0, 0, (length - HEADER) / 2];
    for (place, field) in zone.chunks_exact_mut(4).zip(fields) {
        place.copy_from_slice(&(field as u32).to_be_bytes());
    }
}

/// The counts and the stratum of one block, by limits or by the formula: the
/// former by the text of `model`, the latter by the Rust implementation's.
fn wanted(words: u32, limits: Option<&Limits>) -> (Vec<u32>, usize) {
    match limits {
        None => (by_formula(&[words as usize]), zone::stratum(words)),
        Some(limits) => {
            let counts = by_limits(&[words as usize], &limits.map(|limit| limit as usize));
            (counts, zone::stratum_by(limits, words))
        }
    }
}

/// The stratum of the one free block in a zone of `length` bytes: the model's
/// limits, the Rust implementation and the archive's census must agree on it.
pub fn of_length(
    zone: &mut [u8],
    length: usize,
    limits: Option<&Limits>,
) -> Result<usize, String> {
    put(zone, length);
    let (lent, second) = (&zone[..length], limits.map_or(vec![], bytes_of));
    let mut counts = [0; STRATA];
    // SAFETY: all are lent whole for this call alone.
    let number = unsafe {
        let (z, n, s, k) = (lent.as_ptr(), lent.len() as u64, second.as_ptr(), second.len() as u64);
        nafelode_census(z, n, s, k, &mut counts)
    };
    let words = (length - HEADER) as u32 / 2;
    let (wanted, stratum) = wanted(words, limits);
    if number == 0 && counts[..] == wanted && wanted.get(stratum) == Some(&1) {
        return Ok(stratum);
    }
    Err(format!(
        "census of a zone of {length} bytes with one free block, of {words} words, by {limits:?}\n\
         the limits written out {wanted:?}\nthe Rust implementation: stratum {stratum}\n\
         the archive {number} {counts:?}"
    ))
}
