//! Times of single calls over large zones: `bench [ROUNDS]`.

#[allow(dead_code)]
mod random;
#[allow(dead_code)]
mod zone;

use random::Random;
use std::hint::black_box;
use std::time::Instant;

const MEBIBYTE: u32 = 1_048_576;

/// The least and the middle time of a call in microseconds, each round on a
/// fresh copy of the zone.
fn time(name: &str, zone: &[u8], rounds: usize, mut call: impl FnMut(&mut [u8])) {
    let mut copy = zone.to_vec();
    let mut times: Vec<f64> = (0..rounds)
        .map(|_| {
            copy.copy_from_slice(zone);
            let start = Instant::now();
            call(black_box(&mut copy));
            start.elapsed().as_secs_f64() * 1e6
        })
        .collect();
    times.sort_by(f64::total_cmp);
    println!("{name:<52} least {:>8.1} us, middle {:>8.1} us", times[0], times[rounds / 2]);
}

fn fresh(m: u32) -> Vec<u8> {
    let mut zone = vec![0; MEBIBYTE as usize];
    assert_eq!(zone::initialize(&mut zone, MEBIBYTE, m), Ok(()));
    zone
}

/// A few blocks, the rest one free block.
fn nearly_empty() -> Vec<u8> {
    let mut zone = fresh(16);
    for c in [6, 100, 2_000] {
        zone::allocate_relocatable(&mut zone, c).unwrap();
        zone::allocate_fixed(&mut zone, c).unwrap();
    }
    zone
}

/// 8,188 blocks of 100 data bytes, then every second one freed: written from
/// the bytes, for one call after another would take long.
fn scattered() -> Vec<u8> {
    let mut random = Random::new(1);
    let mut zone = fresh(8_188);
    let first = 16 + 4 * 8_188;
    zone[first..].fill(0);
    let (mut at, mut chain) = (first, 0);
    for i in 0..8_188 {
        let handle = 16 + 4 * i;
        let size = 104;
        if i % 2 == 0 {
            zone[at..at + 2].copy_from_slice(&(0x8000 + size as u16 / 2).to_be_bytes());
            zone[at + 2..at + 4].copy_from_slice(&(handle as u16).to_be_bytes());
            zone[handle..handle + 4].copy_from_slice(&(at as u32 + 4).to_be_bytes());
            zone[at + 4..at + size].fill_with(|| random.any() as u8);
        } else {
            zone[at..at + 4].copy_from_slice(&(size as u32 / 2).to_be_bytes());
            zone[handle..handle + 4].copy_from_slice(&(chain as u32).to_be_bytes());
            chain = handle;
        }
        at += size;
    }
    zone[12..14].copy_from_slice(&(chain as u16).to_be_bytes());
    let last = at - 104;
    zone[last..last + 4].copy_from_slice(&((MEBIBYTE as usize - last) as u32 / 2).to_be_bytes());
    assert_eq!(zone::check(&zone), (true, 4_094));
    zone
}

/// Fixed blocks of 4 bytes alone, the most blocks that a zone can have.
fn all_fixed() -> Vec<u8> {
    let mut zone = fresh(0);
    for header in zone[16..].chunks_mut(4) {
        header.copy_from_slice(&[0x40, 2, 0, 0]);
    }
    assert_eq!(zone::check(&zone), (true, 0));
    zone
}

/// Pages without data alone, as many as a zone can have, no two of one name.
fn all_pages() -> Vec<u8> {
    let mut zone = fresh(0);
    for (i, page) in zone[16..].chunks_exact_mut(8).enumerate() {
        let name = (i as u32).wrapping_mul(0x9E37_79B1).to_be_bytes();
        page[..2].copy_from_slice(&[0xC0, 4]);
        page[2..6].copy_from_slice(&name);
        page[7] = i as u8;
    }
    assert_eq!(zone::check(&zone), (true, 0));
    zone
}

fn main() {
    let rounds = std::env::args().nth(1).and_then(|text| text.parse().ok()).unwrap_or(300).max(1);
    let empty = nearly_empty();
    time("check, 1 MiB nearly empty", &empty, rounds, |zone| {
        black_box(zone::check(zone));
    });
    time("allocate relocatable 100, 1 MiB nearly empty", &empty, rounds, |zone| {
        black_box(zone::allocate_relocatable(zone, 100)).unwrap();
    });
    time("initialize, 1 MiB, m = 8,188", &empty, rounds, |zone| {
        black_box(zone::initialize(zone, MEBIBYTE, 8_188)).unwrap();
    });
    let fixed = all_fixed();
    time("check, 1 MiB of 262,140 fixed blocks", &fixed, rounds, |zone| {
        black_box(zone::check(zone));
    });
    time("compact, 1 MiB of 262,140 fixed blocks", &fixed, rounds, |zone| {
        black_box(zone::compact(zone)).unwrap();
    });
    let pages = all_pages();
    time("check, 1 MiB of 131,070 pages", &pages, rounds, |zone| {
        black_box(zone::check(zone));
    });
    time("create page 0 among them, one is dropped", &pages, rounds, |zone| {
        black_box(zone::create_page(zone, 1, 0)).unwrap();
    });
    time("create page 32,756 among them, 4,096 are dropped", &pages, rounds, |zone| {
        black_box(zone::create_page(zone, 1, 32_756)).unwrap();
    });
    let scattered = scattered();
    time("check, 4,094 blocks and as many holes", &scattered, rounds, |zone| {
        black_box(zone::check(zone));
    });
    time("compact, 4,094 blocks and as many holes", &scattered, rounds, |zone| {
        black_box(zone::compact(zone)).unwrap();
    });
    time("allocate relocatable 100 among them", &scattered, rounds, |zone| {
        black_box(zone::allocate_relocatable(zone, 100)).unwrap();
    });
    time("resize the first of them to 300 (laid out anew)", &scattered, rounds, |zone| {
        black_box(zone::resize(zone, 16, 300)).unwrap();
    });
    time("free the last of them", &scattered, rounds, |zone| {
        black_box(zone::free_handle(zone, 16 + 4 * 8_186)).unwrap();
    });
    time("roster of 4,094", &scattered, rounds, |zone| {
        let mut second = [0; 8 * 4_094];
        black_box(zone::roster(zone, &mut second)).unwrap();
    });
}
