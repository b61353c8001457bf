//! Document 01's paragraph 'Well-formed', with document 02's rules of pages (U5)
//! and of fixed blocks (U6), one function for each rule, each read from the bytes
//! alone. Slow and plain; made to be compared with.

use std::collections::BTreeSet;

type Bytes = [u8];

/// A number of `width` bytes, high byte first; none if it isn't in the buffer.
fn number(buffer: &Bytes, at: usize, width: usize) -> Option<u64> {
    let bytes = buffer.get(at..at.checked_add(width)?)?;
    Some(bytes.iter().fold(0, |value, &byte| 256 * value + u64::from(byte)))
}

#[derive(Clone, Copy, PartialEq, Eq)]
struct Entry {
    kind: u64,
    start: u64,
    size: u64,
}

fn length(buffer: &Bytes) -> Option<u64> {
    number(buffer, 0, 4)
}

fn first_block(buffer: &Bytes) -> Option<u64> {
    number(buffer, 4, 4)
}

fn masters(buffer: &Bytes) -> Option<u64> {
    number(buffer, 8, 4)
}

/// "the buffer has at least 16 bytes"
fn has_header(buffer: &Bytes) -> bool {
    buffer.len() >= 16
}

/// "Header byte 14 becomes a clock, byte 15 remains zero"
fn header_ends_in_zero(buffer: &Bytes) -> bool {
    number(buffer, 15, 1) == Some(0)
}

/// "L is a multiple of 4, at most the buffer's length and 1,048,576"
fn length_is_good(buffer: &Bytes) -> bool {
    length(buffer).is_some_and(|length| {
        length % 4 == 0 && length <= buffer.len() as u64 && length <= 1_048_576
    })
}

/// "m ≤ 8,188"
fn masters_are_few(buffer: &Bytes) -> bool {
    masters(buffer).is_some_and(|m| m <= 8_188)
}

/// "bkFst as above and ≤ L"
fn first_block_is_good(buffer: &Bytes) -> bool {
    match (first_block(buffer), masters(buffer), length(buffer)) {
        (Some(first), Some(m), Some(length)) => first == 16 + 4 * m && first <= length,
        _ => false,
    }
}

/// "sizes [...] as above"; "blocks tile bkFst to L": the blocks, or nothing if a
/// rule of these is broken. With pages each of the four types has its block.
fn tiling(buffer: &Bytes) -> Option<Vec<Entry>> {
    let (mut start, end) = (first_block(buffer)?, length(buffer)?);
    let mut entries = Vec::new();
    while start != end {
        let kind = number(buffer, start as usize, 1)? / 64;
        let size = match kind {
            0 => 2 * number(buffer, start as usize, 4)?,
            _ => 2 * (number(buffer, start as usize, 2)? % 16_384),
        };
        if size < 4 || size % 4 != 0 || start + size > end {
            return None;
        }
        entries.push(Entry { kind, start, size });
        start += size;
    }
    Some(entries)
}

/// "the zeros of free blocks as above": "all later bytes zero"
fn free_blocks_are_zero(buffer: &Bytes, entries: &[Entry]) -> bool {
    entries
        .iter()
        .filter(|entry| entry.kind == 0)
        .all(|entry| (entry.start + 4..entry.start + entry.size).all(|i| buffer[i as usize] == 0))
}

/// "no two free blocks are neighbours"
fn no_free_neighbours(entries: &[Entry]) -> bool {
    !entries.windows(2).any(|pair| pair[0].kind == 0 && pair[1].kind == 0)
}

/// "A fixed block's header becomes 4 bytes, the second word zero"
fn second_words_are_zero(buffer: &Bytes, entries: &[Entry]) -> bool {
    entries
        .iter()
        .filter(|entry| entry.kind == 1)
        .all(|entry| number(buffer, entry.start as usize + 2, 2) == Some(0))
}

/// Of pages: "its size is at least 8"
fn pages_are_large(entries: &[Entry]) -> bool {
    entries.iter().all(|entry| entry.kind != 3 || entry.size >= 8)
}

/// "In the status word the top bit is dirty, the next is lock, the low byte a
/// stamp, the rest zero."
fn status_bits_are_zero(buffer: &Bytes, entries: &[Entry]) -> bool {
    let status = |entry: &Entry| number(buffer, entry.start as usize + 6, 2);
    entries
        .iter()
        .filter(|entry| entry.kind == 3)
        .all(|entry| status(entry).is_some_and(|status| status / 256 % 64 == 0))
}

/// "Names are distinct in a well-formed zone"
fn names_are_distinct(buffer: &Bytes, entries: &[Entry]) -> bool {
    let pages = entries.iter().filter(|entry| entry.kind == 3);
    let names: Vec<_> = pages.map(|entry| number(buffer, entry.start as usize + 2, 4)).collect();
    names.iter().collect::<BTreeSet<_>>().len() == names.len()
}

/// The i for which the offset is 16 + 4i, if that i is below m.
fn master_index(buffer: &Bytes, offset: u64) -> Option<u64> {
    let distance = offset.checked_sub(16)?;
    let i = distance / 4;
    (i * 4 == distance && i < masters(buffer)?).then_some(i)
}

/// "each relocatable block's handle is a master's offset and that master holds
/// the block's data offset"
fn masters_point_to_blocks(buffer: &Bytes, entries: &[Entry]) -> bool {
    entries.iter().filter(|entry| entry.kind == 2).all(|entry| {
        let Some(handle) = number(buffer, entry.start as usize + 2, 2) else { return false };
        master_index(buffer, handle).is_some()
            && number(buffer, handle as usize, 4) == Some(entry.start + 4)
    })
}

/// "the chain from hFstFree visits only masters and ends in 0": its masters.
fn chain(buffer: &Bytes) -> Option<Vec<u64>> {
    let mut visited = Vec::new();
    let mut seen = vec![false; masters(buffer)? as usize];
    let mut next = number(buffer, 12, 2)?;
    while next != 0 {
        let i = master_index(buffer, next)? as usize;
        // a second visit: the chain goes round and ends nowhere
        if seen[i] {
            return None;
        }
        seen[i] = true;
        visited.push(next);
        next = number(buffer, next as usize, 4)?;
    }
    Some(visited)
}

/// The rules that document 02 brings, as `broken_rule` tells them.
pub const SECOND_WORD: &str = "a fixed block's second word";
pub const BYTE_15: &str = "header byte 15";
pub const PAGE_SIZE: &str = "a page's size";
pub const STATUS_BITS: &str = "the status word's six bits";
pub const NAMES: &str = "distinct names";

/// The first rule that the buffer breaks.
pub fn broken_rule(buffer: &Bytes) -> Option<&'static str> {
    if !has_header(buffer) {
        return Some("at least 16 bytes");
    }
    if !header_ends_in_zero(buffer) {
        return Some(BYTE_15);
    }
    if !length_is_good(buffer) {
        return Some("L");
    }
    if !masters_are_few(buffer) {
        return Some("m");
    }
    if !first_block_is_good(buffer) {
        return Some("bkFst");
    }
    let Some(entries) = tiling(buffer) else { return Some("tiling") };
    if !free_blocks_are_zero(buffer, &entries) {
        return Some("zeros of free blocks");
    }
    if !no_free_neighbours(&entries) {
        return Some("free neighbours");
    }
    if !second_words_are_zero(buffer, &entries) {
        return Some(SECOND_WORD);
    }
    if !pages_are_large(&entries) {
        return Some(PAGE_SIZE);
    }
    if !status_bits_are_zero(buffer, &entries) {
        return Some(STATUS_BITS);
    }
    if !names_are_distinct(buffer, &entries) {
        return Some(NAMES);
    }
    if !masters_point_to_blocks(buffer, &entries) {
        return Some("masters");
    }
    let Some(chain) = chain(buffer) else { return Some("chain") };
    let relocatable = entries.iter().filter(|entry| entry.kind == 2).count();
    if Some((relocatable + chain.len()) as u64) != masters(buffer) {
        return Some("relocatable blocks plus chain length");
    }
    None
}

/// Yes or no, and the number of relocatable blocks.
pub fn check(buffer: &Bytes) -> (bool, u32) {
    match (broken_rule(buffer), tiling(buffer)) {
        (None, Some(entries)) => {
            (true, entries.iter().filter(|entry| entry.kind == 2).count() as u32)
        }
        _ => (false, 0),
    }
}
