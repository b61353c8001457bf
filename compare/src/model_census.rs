//! The naive model's census: by the limits of document 01's strata, written out,
//! or by those that a mill lends (document 02, U7).

use super::big_endian;

/// "2^i to 2^(i+1) − 1 words, i from 0 to 18": of each stratum the least and the
/// largest number of words, written out, so that the formula is held against
/// another text.
pub const LIMITS: [(usize, usize); 19] = [
    (1, 1),
    (2, 3),
    (4, 7),
    (8, 15),
    (16, 31),
    (32, 63),
    (64, 127),
    (128, 255),
    (256, 511),
    (512, 1_023),
    (1_024, 2_047),
    (2_048, 4_095),
    (4_096, 8_191),
    (8_192, 16_383),
    (16_384, 32_767),
    (32_768, 65_535),
    (65_536, 131_071),
    (131_072, 262_143),
    (262_144, 524_287),
];

/// How many of these numbers of words each stratum has.
pub fn by_formula(words: &[usize]) -> Vec<u32> {
    let within = |(least, most)| words.iter().filter(|&&one| least <= one && one <= most).count();
    LIMITS.map(|stratum| within(stratum) as u32).to_vec()
}

/// The same by a mill's limits: for each block the limits are gone through from the
/// last one down, to the first that "doesn't exceed its words".
pub fn by_limits(words: &[usize], limits: &[usize]) -> Vec<u32> {
    let mut counts = vec![0; limits.len()];
    for one in words {
        let stratum = limits.iter().rposition(|limit| limit <= one);
        counts[stratum.expect("the first limit is at most 2")] += 1;
    }
    counts
}

/// Whether these are nineteen limits within the rules: nothing but themselves in
/// their order, each once.
pub fn are_limits(limits: &[usize]) -> bool {
    let mut rising = limits.to_vec();
    rising.sort();
    rising.dedup();
    let (first, last) = (limits.first(), limits.iter().max());
    limits.len() == 19 && rising == limits && matches!(first, Some(1 | 2)) && last <= Some(&524_288)
}

/// The counts, or 14 for limits that are none.
pub fn census(words: &[usize], lent: &[u8]) -> Result<Vec<u32>, u32> {
    if lent.is_empty() {
        return Ok(by_formula(words));
    }
    let limits: Vec<usize> = lent.chunks(4).map(big_endian).collect();
    if lent.len() % 4 != 0 || !are_limits(&limits) {
        return Err(14);
    }
    Ok(by_limits(words, &limits))
}
