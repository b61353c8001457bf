//! The records of 'Program zone-run': 16 bytes each, code and three numbers.

use crate::zone::{self, Stretch, Target};

pub const RECORD: usize = 16;
pub const BUFFER: usize = 65_536;

/// "a, b, d of 4 bytes, high byte first".
fn number(record: &[u8; RECORD], at: usize) -> u32 {
    u32::from_be_bytes([record[at], record[at + 1], record[at + 2], record[at + 3]])
}

/// Carries out one record: the refusal number and the value, or nothing for
/// "Code above 10, or bytes 1 to 3 not zero".
pub fn carry_out(buffer: &mut [u8], record: &[u8; RECORD]) -> Option<(u32, u32)> {
    if record[1..4] != [0, 0, 0] {
        return None;
    }
    let (a, b, d) = (number(record, 4), number(record, 8), number(record, 12));
    let answer = match record[0] {
        0 => without_value(zone::initialize(buffer, a, b)),
        1 => zone::allocate_relocatable(buffer, a),
        2 => zone::allocate_fixed(buffer, a),
        3 => without_value(zone::free_handle(buffer, a)),
        4 => without_value(zone::free_pointer(buffer, a)),
        5 => without_value(zone::resize(buffer, a, b)),
        // "write byte d mod 256 to handle a at b"
        6 => without_value(zone::write(buffer, one_byte(a, b), &[d as u8])),
        7 => read_byte(buffer, a, b),
        8 => zone::compact(buffer),
        9 => without_value(zone::enlarge(buffer, a)),
        10 => zone::shrink(buffer, a),
        _ => return None,
    };
    Some(zone::numbers(answer))
}

/// "the value (0 where there is none)".
fn without_value(answer: zone::Answer<()>) -> zone::Answer<u32> {
    answer.map(|()| 0)
}

fn one_byte(handle: u32, offset: u32) -> Stretch {
    Stretch { block: Target::Handle(handle), offset, count: 1 }
}

/// "read a byte there (the byte is the value)".
fn read_byte(buffer: &[u8], handle: u32, offset: u32) -> zone::Answer<u32> {
    let mut byte = [0];
    zone::read(buffer, one_byte(handle, offset), &mut byte)?;
    Ok(u32::from(byte[0]))
}
