//! Tests of the census: the stratum of every size, by the formula (document 02, U4)
//! and by a mill's limits (U7), the rules of limits one by one, and zones at random
//! beside the model.

use crate::calls::Call;
use crate::limits::{a_mill, bytes_of, each_kind, free_words, powers_of_two, Limits};
use crate::model::{census, Item, Picture};
use crate::random::Random;
use crate::zone::{self, STRATA};
use crate::zones::{a_zone, break_a_rule};
use crate::{compare, limit_ways, refusal, wall, ways};

/// The most words that a free block can have.
const MOST_WORDS: u32 = (zone::LENGTH_LIMIT as u32 - 16) / 2;

/// A zone of free blocks of these sizes in words, with fixed ones between them.
fn zone_of(words: &[usize]) -> Vec<u8> {
    let items: Vec<Item> = words.iter().flat_map(|one| [Item::Free(2 * one), wall()]).collect();
    let length = 16 + items.iter().map(Item::size).sum::<usize>();
    Picture { length, m: 0, chain: vec![], clock: 0, items }.encode()
}

/// The counts by these limits.
fn counts(words: &[usize], limits: &Limits) -> [u32; STRATA] {
    zone::census(&zone_of(words), &bytes_of(limits)).unwrap()
}

/// These counts and no others.
fn only(counted: &[(usize, u32)]) -> [u32; STRATA] {
    let mut counts = [0; STRATA];
    counted.iter().for_each(|&(stratum, count)| counts[stratum] = count);
    counts
}

// ------------------------------------------------------------- the formula

/// "2^i to 2^(i+1) − 1 words, i from 0 to 18": the model's limits, by which the
/// formula is judged, are written out.
#[test]
fn the_limits_of_the_strata() {
    let mut power = 1;
    for (least, most) in census::LIMITS {
        assert_eq!((least, most), (power, 2 * power - 1));
        power *= 2;
    }
    assert_eq!(power, 524_288, "2^19");
}

/// Every number of words that a free block can have, and the odd ones between.
#[test]
fn the_formula_keeps_the_limits() {
    for words in 2..=MOST_WORDS {
        let stratum = zone::stratum(words);
        let (least, most) = census::LIMITS[stratum];
        let words = words as usize;
        assert!(least <= words && words <= most, "{words} words are not of stratum {stratum}");
    }
}

// ------------------------------------------------------------ a mill's own

/// Steps of a mill that wants to know of holes for its profiles, of 100 bytes.
const MILL: Limits = [
    2, 50, 100, 150, 200, 250, 300, 350, 400, 450, 500, 550, 600, 650, 700, 750, 800, 850, 524_288,
];

#[test]
fn a_block_counts_in_the_last_stratum_whose_limit_does_not_exceed_its_words() {
    assert_eq!(counts(&[2, 48], &MILL), only(&[(0, 2)]));
    assert_eq!(counts(&[50, 98], &MILL), only(&[(1, 2)]));
    assert_eq!(counts(&[48, 50, 52], &MILL), only(&[(0, 1), (1, 2)]));
    assert_eq!(counts(&[100, 848, 850, 852], &MILL), only(&[(2, 1), (16, 1), (17, 2)]));
    // an odd limit lies between two sizes
    let odd = std::array::from_fn(|i| 2 * i as u32 + 1);
    assert_eq!(counts(&[2, 4, 36, 38], &odd), only(&[(0, 1), (1, 1), (17, 1), (18, 1)]));
    let even = std::array::from_fn(|i| 2 * i as u32 + 2);
    assert_eq!(counts(&[2, 4, 36, 38, 40], &even), only(&[(0, 1), (1, 1), (17, 1), (18, 2)]));
    assert_eq!(counts(&[], &MILL), only(&[]));
}

/// Every number of words that a free block can have, by the limits of some mills.
#[test]
fn halving_finds_what_the_search_from_the_last_does() {
    let mut random = Random::new(31);
    let mills: Vec<Limits> = (0..5).map(|_| a_mill(&mut random, &[])).chain([MILL]).collect();
    for limits in mills {
        let wide = limits.map(|limit| limit as usize);
        for words in 2..=MOST_WORDS {
            let wanted = census::by_limits(&[words as usize], &wide);
            assert_eq!(wanted[zone::stratum_by(&limits, words)], 1, "{words} words by {limits:?}");
        }
    }
}

#[test]
fn the_powers_of_two_are_the_formula() {
    let limits = powers_of_two();
    for words in 2..=MOST_WORDS {
        assert_eq!(zone::stratum_by(&limits, words), zone::stratum(words), "{words} words");
    }
    let zone = zone_of(&[2, 4, 6, 8, 14, 16, 1_022, 1_024]);
    assert_eq!(zone::census(&zone, &bytes_of(&powers_of_two())), zone::census(&zone, &[]));
}

/// "The first is 1 or 2, they rise strictly, and the last is at most 524,288."
#[test]
fn the_rules_of_limits() {
    let number = |lent: &[u8]| refusal(zone::read_limits(lent).map(|_| ()));
    let of = |limits: &Limits| number(&bytes_of(limits));
    let with = |place: usize, limit: u32| {
        let mut limits = MILL;
        limits[place] = limit;
        limits
    };
    let good = bytes_of(&MILL);
    let long = [good.clone(), good.clone()].concat();
    for length in 0..=long.len() {
        let wanted = if length == 0 || length == 76 { 0 } else { 14 };
        assert_eq!(number(&long[..length]), wanted, "{length} bytes");
    }
    assert_eq!([0, 1, 2, 3, u32::MAX].map(|first| of(&with(0, first))), [14, 0, 0, 14, 14]);
    let lasts = [851, 524_287, 524_288, 524_289, u32::MAX];
    assert_eq!(lasts.map(|last| of(&with(18, last))), [0, 0, 0, 14, 14]);
    for place in 1..STRATA {
        let before = MILL[place - 1];
        let limits = [before - 1, before, before + 1];
        assert_eq!(limits.map(|limit| of(&with(place, limit))), [14, 14, 0], "place {place}");
    }
    let low_byte_first: Vec<u8> = MILL.iter().flat_map(|limit| limit.to_le_bytes()).collect();
    assert_eq!(number(&low_byte_first), 14);
}

/// "14: [...] after 1".
#[test]
fn a_broken_zone_is_told_before_broken_limits() {
    let mut zone = zone_of(&[2, 4]);
    assert_eq!(refusal(zone::census(&zone, &[0; 76])), 14);
    zone[15] = 1;
    for lent in [vec![], vec![0; 75], vec![0; 76], bytes_of(&MILL)] {
        assert_eq!(refusal(zone::census(&zone, &lent)), 1);
    }
}

/// Limits of every kind on zones as they are and with a rule broken; the zone and
/// the limits keep every byte.
#[test]
fn limits_of_every_kind() {
    let mut random = Random::new(32);
    let mut met = limit_ways::Counts::default();
    for _ in 0..2_000 {
        let mut zone = a_zone(&mut random, 30);
        if random.once_in(4) {
            break_a_rule(&mut random, &mut zone);
        }
        let words = free_words(&zone);
        for lent in each_kind(&mut random, &words) {
            let before = zone.clone();
            let reply = compare(&mut zone, &Call::Census, &lent, None);
            assert_eq!(zone, before);
            let number = reply.refusal.expect("a census has a number");
            ways::add(&mut met, &limit_ways::of_census(&words, &lent, number));
        }
    }
    println!("limits of every kind; what censuses show: {met:?}");
    assert_eq!(ways::never_met(limit_ways::WAYS, &met), [""; 0], "never met");
}
