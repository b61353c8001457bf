//! Zones with pages and lists of calls on them (document 02, U5), by the archive
//! and by the Rust implementation.

use crate::arguments::{a_call, every_call, CREATING, WITH_PAGES};
use crate::calls::Call;
use crate::differ::Differ;
use crate::model::Picture;
use crate::page_zones::{a_zone_of_many_pages, a_zone_of_pages, break_a_page};
use crate::zone::{self, LENGTH_LIMIT};

type Outcome = Result<(), String>;

fn names(zone: &[u8]) -> Vec<u32> {
    Picture::decode(zone).pages().map(|page| page.name).collect()
}

/// Walls, so that there are so many bays.
fn make_bays(differ: &mut Differ, zone: &mut [u8], count: u32) -> Outcome {
    for _ in 1..count {
        let (_, room) = zone::numbers(zone::sum(zone)).1;
        let part = differ.random.below(room / 2 + 1);
        let pointer = zone::numbers(zone::allocate_fixed(&mut zone.to_vec(), part)).1;
        for call in [Call::Fixed(part), Call::Fixed(0), Call::FreePointer(pointer)] {
            differ.compare(zone, &call, &[])?;
        }
    }
    Ok(())
}

/// Uses of one page, so that others have its stamp again, or that the next step
/// takes the clock round.
fn round(differ: &mut Differ, zone: &mut [u8]) -> Outcome {
    let present = names(zone);
    let Some(&name) = present.first() else { return Ok(()) };
    let to_the_end = u32::from(u8::MAX - zone[14]);
    let many = differ.random.pick(&[254, 255, 255, 256, to_the_end]);
    let other = differ.random.pick(&present);
    differ.compare(zone, &Call::UsePage(other), &[])?;
    for _ in 1..many {
        differ.compare(zone, &Call::UsePage(name), &[])?;
    }
    Ok(())
}

fn lists(differ: &mut Differ, count: u32, steps: u32, least: u32, most: u32) -> Outcome {
    for _ in 0..count {
        let words = differ.random.between(least, most);
        let m = differ.random.pick(&[0, 0, 1, 3, 6]).min(words - 4);
        let beyond = 4 * differ.random.below(2) * differ.random.below(30);
        let mut zone: Vec<u8> =
            (0..4 * words + beyond).map(|_| differ.random.any() as u8).collect();
        differ.compare(&mut zone, &Call::Initialize(4 * words, m), &[])?;
        let bays = differ.random.between(1, 3);
        make_bays(differ, &mut zone, bays)?;
        let weights = differ.random.pick(&WITH_PAGES);
        for _ in 0..steps {
            if differ.random.once_in(80) {
                round(differ, &mut zone)?;
            }
            let (call, second) = a_call(&mut differ.random, &zone, &weights);
            differ.compare(&mut zone, &call, &second)?;
        }
    }
    Ok(())
}

/// Zones built at random: a create, any call, and each call on a damaged copy.
fn zones_at_random(differ: &mut Differ, count: u32) -> Outcome {
    for round in 0..count {
        let mut zone = a_zone_of_pages(&mut differ.random);
        let mut broken = zone.clone();
        let any = differ.random.pick(&WITH_PAGES);
        for weights in [CREATING, any] {
            let (call, second) = a_call(&mut differ.random, &zone, &weights);
            differ.compare(&mut zone, &call, &second)?;
        }
        if round % 8 == 0 {
            break_a_page(&mut differ.random, &mut broken);
            for (call, second) in every_call(&mut differ.random, &broken) {
                differ.compare(&mut broken.clone(), &call, &second)?;
            }
        }
    }
    Ok(())
}

/// Zones of many pages: whether their names are distinct, and which of them go.
fn many_pages(differ: &mut Differ, counts: &[u32]) -> Outcome {
    for &count in counts {
        let zone = a_zone_of_many_pages(&mut differ.random, count);
        let c = differ.random.below(400);
        let name = differ.random.any();
        differ.compare(&mut zone.clone(), &Call::CreatePage(name, c), &[])?;
        for _ in 0..4 {
            let mut broken = zone.clone();
            break_a_page(&mut differ.random, &mut broken);
            differ.compare(&mut broken, &Call::Check, &[])?;
        }
    }
    Ok(())
}

/// A page of the most data bytes, one byte more, and another in its place.
fn the_largest_page(differ: &mut Differ) -> Outcome {
    let mut zone = vec![0xEE; 32_780];
    for call in [
        Call::Initialize(32_780, 0),
        Call::CreatePage(1, 32_757),
        Call::CreatePage(1, 32_756),
        Call::CreatePage(1, 32_757),
        Call::CreatePage(2, 32_753),
    ] {
        differ.compare(&mut zone, &call, &[])?;
    }
    Ok(())
}

/// As many pages as a zone can have; then the last has the first one's name.
fn the_most_pages(differ: &mut Differ) -> Outcome {
    let mut zone = vec![0; LENGTH_LIMIT];
    differ.compare(&mut zone, &Call::Initialize(LENGTH_LIMIT as u32, 0), &[])?;
    let names = (0u32..).map(|i| i.wrapping_mul(0x9E37_79B1).to_be_bytes());
    for (page, name) in zone[16..].chunks_exact_mut(8).zip(names) {
        page.copy_from_slice(&[0xC0, 4, name[0], name[1], name[2], name[3], 0, name[3]]);
    }
    differ.compare(&mut zone, &Call::Check, &[])?;
    let last = LENGTH_LIMIT - 8;
    zone.copy_within(18..22, last + 2);
    differ.compare(&mut zone, &Call::Check, &[])
}

pub fn everything(differ: &mut Differ) -> Outcome {
    lists(differ, 600, 150, 8, 60)?;
    lists(differ, 60, 200, 60, 600)?;
    lists(differ, 20, 120, 9_000, 18_000)?;
    lists(differ, 2, 40, 262_140, 262_144)?;
    zones_at_random(differ, 30_000)?;
    many_pages(differ, &[100, 255, 256, 257, 700, 2_000, 5_000])?;
    the_largest_page(differ)?;
    the_most_pages(differ)
}
