//! Which calls meet holes between which document 02's choice decides (U2):
//! without them a comparison would not tell it from other choices.

/// Ways of placing a block that show the choice, in the order of `Counts`.
pub const WAYS: [&str; 4] = [
    "allocations above a lower hole that is big enough but larger",
    "allocations with two tightest holes",
    "resizes to another bay, above a lower hole that is big enough but larger",
    "resizes to another bay with two tightest holes",
];

/// How often each way was met.
pub type Counts = [u64; WAYS.len()];

fn word(zone: &[u8], at: usize) -> usize {
    zone[at..at + 4].iter().fold(0, |value, &byte| value << 8 | usize::from(byte))
}

/// "the least multiple of 4 not below k" (document 01).
fn up4(k: u32) -> usize {
    (k as usize).div_ceil(4) * 4
}

/// A bay's end and the sizes of its holes, in address order.
struct Bay {
    end: usize,
    holes: Vec<usize>,
}

impl Bay {
    fn sum(&self) -> usize {
        self.holes.iter().sum()
    }
}

/// The bays of a well-formed zone.
fn bays(zone: &[u8]) -> Vec<Bay> {
    let (mut at, length) = (word(zone, 4), word(zone, 0));
    let mut bays = Vec::new();
    let mut holes = Vec::new();
    while at < length {
        let header = word(zone, at);
        let size = if header >> 30 == 0 { 2 * header } else { 2 * (header >> 16 & 0x3FFF) };
        match header >> 30 {
            0 => holes.push(size),
            1 => bays.push(Bay { end: at, holes: std::mem::take(&mut holes) }),
            _ => {}
        }
        at += size;
    }
    bays.push(Bay { end: length, holes });
    bays
}

/// In the lowest bay whose sum reaches the need: whether the lowest hole that
/// is big enough is not the tightest, and whether another is as tight.
fn met(bays: &[Bay], need: usize) -> [u64; 2] {
    let Some(bay) = bays.iter().find(|bay| bay.sum() >= need) else { return [0, 0] };
    let fitting: Vec<usize> = bay.holes.iter().copied().filter(|&size| size >= need).collect();
    let tightest = fitting.iter().min();
    let as_tight = fitting.iter().filter(|&size| Some(size) == tightest).count();
    [u64::from(fitting.first() > tightest), u64::from(as_tight > 1)]
}

/// The same for a block that needs so many bytes, in a well-formed zone.
#[allow(dead_code)]
pub fn of_need(zone: &[u8], need: usize) -> [u64; 2] {
    met(&bays(zone), need)
}

/// What an allocation of c bytes meets in a well-formed zone. With no free
/// master the first bay is laid out anew before (U3): it has one hole at most.
pub fn of_allocation(zone: &[u8], c: u32) -> Counts {
    let mut bays = bays(zone);
    if zone[12..14] == [0, 0] {
        bays[0].holes = vec![bays[0].sum().saturating_sub(32)];
    }
    let [larger_below, equal] = met(&bays, 4 + up4(c));
    [larger_below, equal, 0, 0]
}

/// What a resize of a live handle's block to c bytes meets, if it moves to
/// another bay.
pub fn of_resize(zone: &[u8], handle: u32, c: u32) -> Counts {
    let block = word(zone, handle as usize) - 4;
    let (old, new) = (2 * (word(zone, block) >> 16 & 0x3FFF), 4 + up4(c));
    let bays = bays(zone);
    let own = bays.iter().find(|bay| block < bay.end).map_or(0, Bay::sum);
    if new <= old + own {
        return Counts::default();
    }
    let [larger_below, equal] = met(&bays, new);
    [0, 0, larger_below, equal]
}
