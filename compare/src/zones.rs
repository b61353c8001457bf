//! Zones at random, well-formed and damaged.

use crate::model::{Item, Picture};
use crate::random::Random;

/// A well-formed zone with any arrangement of blocks, any order of handles and
/// chain, and any data bytes.
pub fn a_zone(random: &mut Random, most: u32) -> Vec<u8> {
    let m = random.pick(&[0, 1, 2, 3, 5, 8, 20]);
    let mut handles = shuffled_handles(random, m);
    let longest = random.pick(&[1, 3, 8]);
    let mut items: Vec<Item> = Vec::new();
    for _ in 0..random.below(most + 1) {
        let words = random.below(longest) as usize;
        let mut noise = |count: usize| (0..count).map(|_| random.any() as u8).collect::<Vec<u8>>();
        let data = noise(4 * words);
        match random.below(7) {
            0..=2 if !matches!(items.last(), Some(Item::Free(_))) => {
                items.push(Item::Free(4 * words + 4));
            }
            3 => items.push(Item::Fixed(data)),
            _ => {
                if let Some(handle) = handles.pop() {
                    items.push(Item::Relocatable(handle, data));
                }
            }
        }
    }
    let mut buffer = encoded(items, m, handles);
    buffer.extend((0..random.below(2) * random.below(30)).map(|_| random.any() as u8));
    buffer
}

/// A small fixed block, with data or without.
pub fn a_wall(random: &mut Random) -> Item {
    Item::Fixed([0xA5, 0x5A, 0x3C, 0xC3].repeat(random.below(2) as usize))
}

/// The handles of m masters in any order.
pub fn shuffled_handles(random: &mut Random, m: u32) -> Vec<u32> {
    let mut handles: Vec<u32> = (0..m).map(|i| 16 + 4 * i).collect();
    for i in (1..handles.len()).rev() {
        handles.swap(i, random.below(i as u32 + 1) as usize);
    }
    handles
}

/// The zone of these blocks, without a byte to spare.
fn encoded(items: Vec<Item>, m: u32, chain: Vec<u32>) -> Vec<u8> {
    let length = 16 + 4 * m as usize + items.iter().map(Item::size).sum::<usize>();
    Picture { length, m: m as usize, chain, clock: 0, items }.encode()
}

/// A well-formed zone of full bays and of bays with many holes, some of them
/// equal: where a block goes in one of those is a choice (document 02, U2).
pub fn a_pitted_zone(random: &mut Random) -> Vec<u8> {
    const MOST_BAYS: u32 = 4;
    const MOST_BLOCKS: u32 = 6;
    let m = MOST_BAYS * MOST_BLOCKS + 1;
    let mut handles = shuffled_handles(random, m);
    let (least, step) = (random.between(1, 5), random.between(1, 4));
    let mut items = Vec::new();
    for bay in 0..random.between(1, MOST_BAYS) {
        if bay > 0 {
            items.push(a_wall(random));
        }
        let full = random.once_in(2);
        for handle in handles.split_off(handles.len() - random.between(1, MOST_BLOCKS) as usize) {
            if !full {
                items.push(Item::Free(4 * (least + step * random.below(3)) as usize));
            }
            let data = (0..4 * random.below(4)).map(|_| random.any() as u8).collect();
            items.push(Item::Relocatable(handle, data));
        }
    }
    encoded(items, m, handles)
}

/// A well-formed zone whose masters are all in use, its first bay with holes of
/// which some make 32 bytes only together: where its blocks go when the pool of
/// masters grows, and whether it does, is document 02's (U3).
pub fn a_zone_without_free_master(random: &mut Random) -> Vec<u8> {
    let m = random.below(9);
    let mut handles = shuffled_handles(random, m);
    let mut items = Vec::new();
    let longest = random.pick(&[2, 4, 10]);
    let last_bay = random.below(3);
    for bay in 0..=last_bay {
        if bay > 0 {
            items.push(a_wall(random));
        }
        let few = random.below(handles.len() as u32 + 1);
        let count = if bay == last_bay { handles.len() } else { few as usize };
        for handle in handles.split_off(handles.len() - count) {
            if random.once_in(2) {
                items.push(Item::Free(4 * random.between(1, longest) as usize));
            }
            let data = (0..4 * random.below(8)).map(|_| random.any() as u8).collect();
            items.push(Item::Relocatable(handle, data));
        }
        if random.once_in(2) {
            items.push(Item::Free(4 * random.between(1, 2 * longest) as usize));
        }
    }
    encoded(items, m, handles)
}

/// The same with as many masters as a zone can have, or up to nine fewer.
pub fn a_zone_of_all_masters(random: &mut Random) -> Vec<u8> {
    let m = 8_188 - random.below(10);
    let mut items = Vec::new();
    for (i, handle) in shuffled_handles(random, m).into_iter().enumerate() {
        if i % 4_000 == 0 {
            items.push(Item::Free(4 * random.between(1, 10) as usize));
        }
        items.push(Item::Relocatable(handle, vec![]));
    }
    encoded(items, m, vec![])
}

/// Changes a few bytes or numbers; the zone may or may not stay well-formed.
pub fn damage(random: &mut Random, buffer: &mut Vec<u8>) {
    for _ in 0..random.pick(&[1, 1, 1, 2, 3]) {
        if buffer.len() < 20 {
            return;
        }
        let length = buffer.len() as u32;
        let at = 4 * random.below(length / 4) as usize;
        match random.below(8) {
            0 => buffer[random.below(length) as usize] = random.any() as u8,
            1 => buffer[random.below(length) as usize] ^= 1 << random.below(8),
            2 => buffer[random.below(16) as usize] = random.below(48) as u8,
            3 => {
                let from = 4 * random.below(length / 4) as usize;
                buffer.copy_within(from..from + 4, at);
            }
            4 => buffer.truncate(random.below(length + 1) as usize),
            5 => buffer[at + 3] = 4 * random.below(20) as u8,
            6 => buffer[at..at + 4].fill(0),
            _ => buffer[at + 3] = buffer[at + 3].wrapping_add(random.pick(&[1, 2, 4, 252, 254])),
        }
    }
}

/// A number of 4 bytes in the buffer.
pub fn word(buffer: &[u8], at: usize) -> usize {
    buffer[at..at + 4].iter().fold(0, |value, &byte| value << 8 | usize::from(byte))
}

fn put_word(buffer: &mut [u8], at: usize, value: usize) {
    buffer[at..at + 4].copy_from_slice(&(value as u32).to_be_bytes());
}

/// Breaks, or seems to break, one rule of a well-formed zone at a chosen place.
pub fn break_a_rule(random: &mut Random, buffer: &mut Vec<u8>) {
    let (length, first) = (word(buffer, 0), word(buffer, 4));
    let masters = (first - 16) / 4;
    let starts = block_starts(buffer);
    match random.below(12) {
        // L past the buffer, short of the blocks, or no multiple of 4
        0 => {
            let wrong =
                [length + 4, length.wrapping_sub(4), length + 2, buffer.len() + 4, 0xFFFF_FFFC];
            put_word(buffer, 0, random.pick(&wrong));
        }
        // m or bkFst
        1 => {
            let at = random.pick(&[4, 8]);
            let wrong = word(buffer, at).wrapping_add(random.pick(&[1, 4, 8_189, usize::MAX]));
            put_word(buffer, at, wrong);
        }
        2 => buffer[14 + random.below(2) as usize] ^= 1 << random.below(8),
        3 => break_chain(random, buffer, masters),
        // a buffer that ends inside the zone
        4 => {
            buffer.truncate(length - (1 + random.below(4 + length as u32 / 2) as usize).min(length))
        }
        // a byte of the longest free block that is not zero, its last one too
        5 | 6 => {
            let free = starts.iter().filter(|&&at| buffer[at] >> 6 == 0);
            if let Some(&at) = free.max_by_key(|&&at| word(buffer, at)) {
                let size = 2 * word(buffer, at);
                let any = random.below(size as u32) as usize;
                let place = random.pick(&[size - 1, any]);
                buffer[at + place] ^= 1 << random.below(8);
            }
        }
        7 => break_second_word(random, buffer, &starts),
        _ => {
            if let Some(&at) = starts.get(random.below(starts.len() as u32) as usize) {
                break_block(random, buffer, at, length);
            }
        }
    }
}

/// One bit of some fixed block's second word.
fn break_second_word(random: &mut Random, buffer: &mut [u8], starts: &[usize]) {
    let fixed: Vec<usize> = starts.iter().copied().filter(|&at| buffer[at] >> 6 == 1).collect();
    if !fixed.is_empty() {
        let at = random.pick(&fixed) + 2 + random.below(2) as usize;
        buffer[at] ^= 1 << random.below(8);
    }
}

/// A chain that goes round, leaves the masters, or visits a live one.
fn break_chain(random: &mut Random, buffer: &mut [u8], masters: usize) {
    let target = match random.below(5) {
        0 => 16 + 4 * masters,
        1 => 12,
        2 => 16 + 4 * random.below(masters as u32 + 1) as usize + 1,
        _ => 16 + 4 * random.below(masters as u32) as usize,
    };
    if masters == 0 || random.once_in(3) {
        buffer[12..14].copy_from_slice(&(target as u16).to_be_bytes());
    } else {
        put_word(buffer, 16 + 4 * random.below(masters as u32) as usize, target);
    }
}

/// A block's type, size or handle, a free block's zeros, a free block in two.
fn break_block(random: &mut Random, buffer: &mut [u8], at: usize, length: usize) {
    let header = word(buffer, at);
    let size = if header >> 30 == 0 { 2 * header } else { 2 * (header >> 16 & 0x3FFF) };
    match random.below(6) {
        0 => buffer[at] ^= 0x40 << random.below(2),
        1 => buffer[at + 1] ^= 1 << random.below(8),
        2 if header >> 30 == 0 => {
            put_word(buffer, at, random.pick(&[0, 1, header + 2, length, 0x3FFF_FFFF]))
        }
        2 => buffer[at + 3] = buffer[at + 3].wrapping_add(random.pick(&[1, 4, 252])),
        3 if header >> 30 == 0 && size >= 8 => {
            let part = 4 * random.between(1, size as u32 / 4 - 1) as usize;
            put_word(buffer, at, part / 2);
            put_word(buffer, at + part, (size - part) / 2);
        }
        _ => buffer[at + random.below(size.max(4) as u32) as usize] ^= 1 << random.below(8),
    }
}

pub fn block_starts(buffer: &[u8]) -> Vec<usize> {
    let (mut at, length) = (word(buffer, 4), word(buffer, 0));
    let mut starts = Vec::new();
    while at < length {
        let header = word(buffer, at);
        starts.push(at);
        at += if header >> 30 == 0 { 2 * header } else { 2 * (header >> 16 & 0x3FFF) };
    }
    starts
}

/// A short buffer of anything, or with a header that may be good and small
/// numbers behind it.
pub fn noise(random: &mut Random, length: u32) -> Vec<u8> {
    let mut buffer: Vec<u8> = (0..length).map(|_| random.any() as u8).collect();
    if random.once_in(2) && length >= 16 {
        let m = random.below(3);
        let header = [length & !3, 16 + 4 * m, m, random.below(3) * 0x0010_0000];
        for (i, number) in header.iter().enumerate() {
            buffer[4 * i..4 * i + 4].copy_from_slice(&number.to_be_bytes());
        }
        for byte in &mut buffer[16..] {
            *byte = random.pick(&[0, 0, 0, 0, 2, 4, 6, 16, 20, 24, 28, 0x40, 0x80, 0xC0]);
        }
    }
    buffer
}
