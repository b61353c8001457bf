//! zone-run once more, over the naive model, to compare its lines with.

#[allow(dead_code)]
mod calls;
mod lines;
#[allow(dead_code)]
mod model;
mod rules;
#[allow(dead_code)]
mod zone;

use calls::{Call, Reply};
use std::process::ExitCode;
use zone::{Stretch, Target};

fn carry_out(buffer: &mut [u8], record: &[u8; 16]) -> Option<(u32, u32)> {
    let mut numbers = record.chunks(4).map(|bytes| {
        bytes.iter().fold(0u32, |value, &byte| value << 8 | u32::from(byte))
    });
    let (tag, a, b, d) = (numbers.next()?, numbers.next()?, numbers.next()?, numbers.next()?);
    // the code in the first byte and three zeros, as one number
    let stretch = Stretch { block: Target::Handle(a), offset: b, count: 1 };
    let mut second = [0];
    let call = match tag.rotate_left(8) {
        0 => Call::Initialize(a, b),
        1 => Call::Relocatable(a),
        2 => Call::Fixed(a),
        3 => Call::FreeHandle(a),
        4 => Call::FreePointer(a),
        5 => Call::Resize(a, b),
        6 => {
            second[0] = (d % 256) as u8;
            Call::Write(stretch)
        }
        7 => Call::Read(stretch),
        8 => Call::Compact,
        9 => Call::Enlarge(a),
        10 => Call::Shrink(a),
        _ => return None,
    };
    let Reply { refusal, values, .. } = model::ask_model(buffer, &call, &mut second);
    let value = match call {
        Call::Read(_) => u32::from(second[0]),
        _ => values.first().copied().unwrap_or(0),
    };
    Some((refusal?, value))
}

fn main() -> ExitCode {
    let mut buffer = vec![0; 65_536];
    lines::run_standard(|record| carry_out(&mut buffer, record))
}
