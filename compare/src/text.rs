//! Records as readable text and back: `relocatable 6`, `write 16 7 171`; bytes
//! that are no call are `raw` and hexadecimal digits.

use crate::records::RECORD;

/// The codes in order, each with how many numbers it names.
const CODES: [(&str, usize); 11] = [
    ("initialize", 2),
    ("relocatable", 1),
    ("fixed", 1),
    ("free_handle", 1),
    ("free_pointer", 1),
    ("resize", 2),
    ("write", 3),
    ("read", 2),
    ("compact", 0),
    ("enlarge", 1),
    ("shrink", 1),
];

/// The bytes of a record that text names.
pub fn parse(text: &str) -> Option<Vec<u8>> {
    let mut words = text.split_whitespace();
    let name = words.next()?;
    if name == "raw" {
        return words.map(hex_bytes).collect::<Option<Vec<_>>>().map(|parts| parts.concat());
    }
    let code = CODES.iter().position(|code| code.0 == name)?;
    let numbers: Vec<u32> = words.map(|word| word.parse().ok()).collect::<Option<_>>()?;
    if numbers.len() != CODES[code].1 {
        return None;
    }
    let mut record = vec![code as u8, 0, 0, 0];
    record.extend(numbers.iter().flat_map(|number| number.to_be_bytes()));
    record.resize(RECORD, 0);
    Some(record)
}

fn hex_bytes(word: &str) -> Option<Vec<u8>> {
    if word.len() % 2 != 0 {
        return None;
    }
    (0..word.len() / 2).map(|i| u8::from_str_radix(word.get(2 * i..2 * i + 2)?, 16).ok()).collect()
}

/// The text of a record, without the numbers that its code doesn't name.
pub fn show(record: &[u8]) -> String {
    match (record.len(), record.first().and_then(|&code| CODES.get(usize::from(code)))) {
        (RECORD, Some((name, count))) if record[1..4] == [0, 0, 0] => {
            let numbers = record[4..].chunks(4).take(*count);
            numbers.fold(String::from(*name), |text, number| {
                let number = number.iter().fold(0u32, |value, &byte| value << 8 | u32::from(byte));
                format!("{text} {number}")
            })
        }
        _ => record.iter().fold(String::from("raw "), |text, byte| format!("{text}{byte:02X}")),
    }
}
