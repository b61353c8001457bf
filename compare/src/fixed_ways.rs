//! Which pointers lie where a fixed block without data puts them (document 02,
//! U6): its pointer is its own end, which is L or where the next block begins,
//! and still that block's. Without them a comparison would not tell the pointer
//! from an offset inside the block.

/// Where the pointer lies, in the order of `Counts`.
pub const WAYS: [&str; 2] = ["a pointer that is L", "a pointer where the next block begins"];

/// How often each way was met.
pub type Counts = [u64; WAYS.len()];

fn word(zone: &[u8], at: usize) -> usize {
    zone[at..at + 4].iter().fold(0, |value, &byte| value << 8 | usize::from(byte))
}

/// What an accepted call by this pointer shows, in a well-formed zone.
pub fn of_pointer(zone: &[u8], pointer: u32) -> Counts {
    let (at, length) = (pointer as usize, word(zone, 0));
    let empty = word(zone, at - 4) == 0x4002_0000;
    [u64::from(empty && at == length), u64::from(empty && at < length)]
}
