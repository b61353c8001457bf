//! Which allocations find no free master, and what they show of the pool of
//! masters that grows (document 02, U3): without them a comparison would not
//! tell that from other ways to grow, or not to.

/// What such an allocation shows, in the order of `Counts`. The last comes where
/// m is near its limit, which takes a list of its own.
pub const WAYS: [&str; 7] = [
    "allocations that add masters and slide blocks up",
    "allocations that add masters and slide blocks up and down",
    "allocations that add masters, and the block goes to another bay",
    "allocations that add masters where there was none",
    "allocations with no master free, refused 4: less than 32 bytes in the first bay",
    "allocations with no master free, refused 5: enough before the 32 bytes, not after",
    "allocations with no master free, refused 4: m + 8 alone is too large",
];

/// How often each way was met.
pub type Counts = [u64; WAYS.len()];

fn number(zone: &[u8], at: usize, width: usize) -> usize {
    zone[at..at + width].iter().fold(0, |value, &byte| value << 8 | usize::from(byte))
}

/// The bays of a well-formed zone: whether each block is free, and its size.
fn bays(zone: &[u8]) -> Vec<Vec<(bool, usize)>> {
    let (mut at, length) = (number(zone, 4, 4), number(zone, 0, 4));
    let mut bays = vec![Vec::new()];
    while at < length {
        let (kind, short) = (zone[at] >> 6, 2 * (number(zone, at, 2) & 0x3FFF));
        let size = if kind == 0 { 2 * number(zone, at, 4) } else { short };
        match bays.last_mut() {
            Some(bay) if kind != 1 => bay.push((kind == 0, size)),
            _ => bays.push(Vec::new()),
        }
        at += size;
    }
    bays
}

fn sum(bay: &[(bool, usize)]) -> usize {
    bay.iter().filter(|block| block.0).map(|block| block.1).sum()
}

/// Whether blocks of the first bay go up, and whether some go down, when it
/// gives up 32 bytes at its start and closes its gaps.
fn slides(bay: &[(bool, usize)]) -> (bool, bool) {
    let (mut free, mut up, mut down) = (0, false, false);
    for &(is_free, size) in bay {
        if is_free {
            free += size;
        } else {
            up |= free < 32;
            down |= free > 32;
        }
    }
    (up, down)
}

/// What an allocation of c bytes in a well-formed zone shows, by its refusal
/// number, 0 if done.
pub fn of_allocation(zone: &[u8], c: u32, refusal: u32) -> Counts {
    let mut counts = Counts::default();
    if !matches!(refusal, 0 | 4 | 5) || number(zone, 12, 2) != 0 {
        return counts;
    }
    let (m, bays) = (number(zone, 8, 4), bays(zone));
    let need = 4 + (c as usize).div_ceil(4) * 4;
    let (first, (up, down)) = (sum(&bays[0]), slides(&bays[0]));
    let shows = [
        refusal == 0 && up,
        refusal == 0 && up && down,
        refusal == 0 && first < need + 32,
        refusal == 0 && m == 0,
        refusal == 4 && first < 32,
        refusal == 5 && bays.iter().any(|bay| sum(bay) >= need),
        refusal == 4 && first >= 32,
    ];
    for (count, shown) in counts.iter_mut().zip(shows) {
        *count = u64::from(shown);
    }
    counts
}
