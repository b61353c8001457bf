//! Zones with pages at random (document 02, U5), and damage to their rules.

use crate::model::{Item, Page, Picture};
use crate::random::Random;
use crate::zones::{a_wall, block_starts, shuffled_handles, word};

/// Names of pages: few, so that a call's name is often there.
const NAMES: [u32; 14] =
    [0, 1, 2, 3, 5, 8, 16, 64, 255, 256, 0x0100_0000, 0x7FFF_FFFF, 0x8000_0000, 0xFFFF_FFFF];

/// How the ages and flags of a zone's pages are spread.
struct Temper {
    clock: u8,
    /// ages are below this, so that many are equal, or any
    ages: u32,
    dirty_once_in: u32,
    locked_once_in: u32,
}

fn a_temper(random: &mut Random) -> Temper {
    Temper {
        clock: random.pick(&[0, 1, 2, 254, 255, 255, 100, 200]),
        ages: random.pick(&[1, 2, 3, 5, 256]),
        dirty_once_in: random.pick(&[2, 4, 12, 1_000]),
        locked_once_in: random.pick(&[2, 4, 12, 1_000]),
    }
}

impl Temper {
    fn a_page(&self, random: &mut Random, name: u32, longest: u32) -> Item {
        Item::Page(Page {
            name,
            dirty: random.once_in(self.dirty_once_in),
            lock: random.once_in(self.locked_once_in),
            stamp: self.clock.wrapping_sub(random.below(self.ages) as u8),
            data: (0..4 * random.below(longest)).map(|_| random.any() as u8).collect(),
        })
    }
}

/// A well-formed zone of one to three bays with pages, relocatable blocks and
/// holes, some of them without a free byte, some without a free master.
pub fn a_zone_of_pages(random: &mut Random) -> Vec<u8> {
    let temper = a_temper(random);
    let mut names = shuffled(random, NAMES.to_vec());
    let hole_once_in = random.pick(&[1, 2, 4, 1_000]);
    let longest = random.pick(&[1, 3, 6, 12]);
    let mut items = Vec::new();
    for bay in 0..random.between(1, 3) {
        if bay > 0 {
            items.push(a_wall(random));
        }
        for _ in 0..random.below(8) {
            if random.once_in(hole_once_in) {
                items.push(Item::Free(4 * random.between(1, longest + 2) as usize));
            }
            items.push(match names.pop() {
                Some(name) if !random.once_in(4) => temper.a_page(random, name, longest),
                _ => a_relocatable(random, longest),
            });
        }
        if random.once_in(hole_once_in) {
            items.push(Item::Free(4 * random.between(1, 2 * longest + 9) as usize));
        }
    }
    zone_of(random, items, temper.clock)
}

/// A well-formed zone of one bay with so many pages and no free byte.
pub fn a_zone_of_many_pages(random: &mut Random, count: u32) -> Vec<u8> {
    let temper = a_temper(random);
    let step = random.pick(&[1, 255, 256, 0x0001_0001, 0x9E37_79B1]);
    // odd steps and short rows of even ones never come back to a name
    let names = shuffled(random, (0..count).map(|i| i.wrapping_mul(step)).collect());
    let pages = names.into_iter().map(|name| temper.a_page(random, name, 2)).collect();
    zone_of(random, pages, temper.clock)
}

fn a_relocatable(random: &mut Random, longest: u32) -> Item {
    // its handle comes when all blocks are there
    Item::Relocatable(0, (0..4 * random.below(longest)).map(|_| random.any() as u8).collect())
}

/// The zone of these blocks, whose relocatable ones get handles in any order, with
/// a few free masters or none.
fn zone_of(random: &mut Random, mut items: Vec<Item>, clock: u8) -> Vec<u8> {
    let blocks = items.iter().filter(|item| matches!(item, Item::Relocatable(..))).count() as u32;
    let m = blocks + random.pick(&[0, 0, 1, 3]);
    let mut handles = shuffled_handles(random, m);
    for item in &mut items {
        if let Item::Relocatable(handle, _) = item {
            *handle = handles.pop().expect("a master for each block");
        }
    }
    let length = 16 + 4 * m as usize + items.iter().map(Item::size).sum::<usize>();
    Picture { length, m: m as usize, chain: handles, clock, items }.encode()
}

fn shuffled(random: &mut Random, mut names: Vec<u32>) -> Vec<u32> {
    for i in (1..names.len()).rev() {
        names.swap(i, random.below(i as u32 + 1) as usize);
    }
    names
}

/// Breaks one rule of a zone with pages: a page of 4 bytes, a bit of a status
/// word, a name twice, header byte 15. Another clock breaks none.
pub fn break_a_page(random: &mut Random, zone: &mut [u8]) {
    let pages: Vec<usize> =
        block_starts(zone).into_iter().filter(|&at| zone[at] >> 6 == 3).collect();
    let page = random.pick_or(&pages, 0);
    match random.below(5) {
        0 => zone[14] = random.any() as u8,
        1 => zone[15] ^= 1 << random.below(8),
        _ if page == 0 => {}
        2 => cut_to_4(zone, page),
        3 => zone[page + 6] ^= 1 << random.below(6),
        _ => {
            let other = random.pick(&pages);
            zone.copy_within(other + 2..other + 6, page + 2);
        }
    }
}

/// The page has 4 bytes then; a fixed block takes the others.
fn cut_to_4(zone: &mut [u8], at: usize) {
    let rest = 2 * (word(zone, at) >> 16 & 0x3FFF) - 4;
    zone[at..at + 2].copy_from_slice(&[0xC0, 2]);
    zone[at + 4..at + 8].copy_from_slice(&(0x4000_0000 + ((rest as u32 / 2) << 16)).to_be_bytes());
}
