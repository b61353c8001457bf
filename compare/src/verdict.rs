//! What a call leaves on two sides, held against each other byte by byte.

use crate::calls::Reply;

/// What a call leaves on one side.
pub struct Left<'a> {
    pub reply: &'a Reply,
    pub zone: &'a [u8],
    pub second: &'a [u8],
}

/// The first difference as text. A roster's records come by rising handle
/// (document 02, U1), so its second buffer is compared as any other: whole.
pub fn difference(wanted: &Left, got: &Left) -> Option<String> {
    if wanted.reply != got.reply {
        return Some("the answers differ".into());
    }
    let buffers = [("zone", wanted.zone, got.zone), ("second buffer", wanted.second, got.second)];
    for (name, wanted, got) in buffers {
        if wanted != got {
            return Some(match wanted.iter().zip(got).position(|(one, other)| one != other) {
                Some(at) => format!("byte {at} of the {name} should be {:02X}", wanted[at]),
                None => format!("the {name} has another length"),
            });
        }
    }
    None
}
