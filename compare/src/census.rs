//! The census: free blocks counted by stratum, by the formula (document 02, U4) or
//! by the limits that a mill lends (U7).
//!
//! Text in quotation marks is document 02's, but for the strata of length 0, which
//! are document 01's.

use super::{all_blocks, get32, open, Answer, Kind, Layout, Refusal};

pub const STRATA: usize = 19;

/// "nineteen 4-byte limits"
const LIMITS_LENGTH: usize = 4 * STRATA;

/// The most that a limit may be, in words.
const HIGHEST: u32 = 524_288;

/// "The stratum is worked out from the size in words by its leading zeros": those
/// of a number of 32 bits. No free block has 0 words.
pub fn stratum(words: u32) -> usize {
    (31 - words.leading_zeros()) as usize
}

/// "It lends 76 bytes: nineteen 4-byte limits in words, checked each time they are
/// lent. The first is 1 or 2, they rise strictly, and the last is at most
/// 524,288." None for length 0, with which "the formula holds".
pub fn read_limits(lent: &[u8]) -> Answer<Option<[u32; STRATA]>> {
    if lent.is_empty() {
        return Ok(None);
    }
    if lent.len() != LIMITS_LENGTH {
        return Err(Refusal::BadLimits);
    }
    let limits: [u32; STRATA] = std::array::from_fn(|i| get32(lent, 4 * i));
    let rise = limits.windows(2).all(|pair| pair[0] < pair[1]);
    if !(1..=2).contains(&limits[0]) || !rise || limits[STRATA - 1] > HIGHEST {
        return Err(Refusal::BadLimits);
    }
    Ok(Some(limits))
}

/// "A free block counts in the last stratum whose limit doesn't exceed its words":
/// it has at least 2, so there is one, and limits rise, so it is found by halving.
pub fn stratum_by(limits: &[u32; STRATA], words: u32) -> usize {
    limits.partition_point(|&limit| limit <= words) - 1
}

/// "The census counts free blocks by stratum i, of 2^i to 2^(i+1) − 1 words, i
/// from 0 to 18"; "it answers all nineteen counts together". Strata are the mill's
/// own where limits are lent.
pub fn census(zone: &[u8], limits: &[u8]) -> Answer<[u32; STRATA]> {
    let layout = open(zone)?;
    Ok(match read_limits(limits)? {
        None => count(zone, &layout, stratum),
        Some(limits) => count(zone, &layout, |words| stratum_by(&limits, words)),
    })
}

fn count(zone: &[u8], layout: &Layout, stratum: impl Fn(u32) -> usize) -> [u32; STRATA] {
    let mut counts = [0; STRATA];
    for block in all_blocks(zone, layout).filter(|block| block.kind == Kind::Free) {
        counts[stratum((block.size / 2) as u32)] += 1;
    }
    counts
}
