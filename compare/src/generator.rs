//! A list of zone-run records from a seed.
//!
//! The list is a row of eras. Each era begins with an accepted initialize and
//! has a temper of its own: what it calls most, and how large its blocks are.
//! The zone runs beside the list, so that live and dead handles and pointers
//! and the edges of the free sums are known.

use crate::coverage::Coverage;
use crate::random::Random;
use crate::records::{carry_out, BUFFER, RECORD};
use crate::zone;

/// How often each code is chosen.
const BALANCED: [u32; 11] = [0, 24, 10, 14, 8, 14, 12, 10, 2, 3, 3];
const FILLING: [u32; 11] = [0, 36, 14, 9, 5, 22, 6, 4, 1, 2, 2];
const MANY_FIXED: [u32; 11] = [0, 14, 34, 9, 20, 10, 4, 4, 2, 3, 3];
const RESIZING: [u32; 11] = [0, 14, 5, 6, 4, 52, 8, 7, 1, 2, 2];
const LENGTH: [u32; 11] = [0, 18, 8, 10, 6, 12, 5, 5, 2, 18, 18];
const BYTES: [u32; 11] = [0, 12, 5, 6, 4, 8, 30, 30, 2, 1, 1];
const MANY_HANDLES: [u32; 11] = [0, 56, 4, 6, 3, 16, 5, 5, 1, 2, 2];
const TEMPERS: [[u32; 11]; 7] =
    [BALANCED, FILLING, MANY_FIXED, RESIZING, LENGTH, BYTES, MANY_HANDLES];

/// Numbers at the edges of document 01's limits and of 32 bits.
const EDGES: [u32; 18] = [
    0,
    1,
    3,
    4,
    15,
    16,
    17,
    32_759,
    32_760,
    32_761,
    32_762,
    32_763,
    32_764,
    65_536,
    65_552,
    0x7FFF_FFFF,
    0x8000_0000,
    0xFFFF_FFFF,
];

struct Era {
    weights: [u32; 11],
    largest_block: u32,
    /// keep the zone nearly full: allocate whenever this much is free
    fill_above: u32,
    left: u32,
}

struct Generator {
    random: Random,
    output: Vec<u8>,
    zone: Vec<u8>,
    handles: Vec<u32>,
    dead_handles: Vec<u32>,
    pointers: Vec<u32>,
    dead_pointers: Vec<u32>,
    left: u64,
    coverage: Coverage,
}

impl Generator {
    fn new(seed: u64, count: u64) -> Generator {
        Generator {
            random: Random::new(seed),
            output: Vec::with_capacity(RECORD * (count as usize + 1)),
            zone: vec![0; BUFFER],
            handles: Vec::new(),
            dead_handles: Vec::new(),
            pointers: Vec::new(),
            dead_pointers: Vec::new(),
            left: count,
            coverage: Coverage::default(),
        }
    }

    /// The list, and what it meets.
    fn end(mut self) -> (Vec<u8>, Coverage) {
        self.coverage.end(self.output.len() % RECORD != 0);
        (self.output, self.coverage)
    }

    // ------------------------------------------------------- writing records

    /// Writes the record, carries it out and keeps the books.
    fn emit(&mut self, record: [u8; RECORD]) -> Option<(u32, u32)> {
        if self.left == 0 {
            return None;
        }
        self.left -= 1;
        self.output.extend_from_slice(&record);
        let before = Coverage::watched(&self.zone);
        let answer = carry_out(&mut self.zone, &record);
        self.coverage.note(&record, answer, &before, &self.zone);
        answer
    }

    /// A record of a code and its numbers; those not named hold anything.
    fn call(&mut self, code: u8, named: &[u32]) -> Option<u32> {
        let mut record = [0; RECORD];
        record[0] = code;
        let noise = self.random.once_in(2);
        for i in 0..3 {
            let other = if noise { self.random.any() } else { 0 };
            let number = named.get(i).copied().unwrap_or(other);
            record[4 + 4 * i..8 + 4 * i].copy_from_slice(&number.to_be_bytes());
        }
        match self.emit(record) {
            Some((0, value)) => {
                self.book(code, named, value);
                Some(value)
            }
            _ => None,
        }
    }

    /// What an accepted call changed: which handles and pointers are live.
    fn book(&mut self, code: u8, named: &[u32], value: u32) {
        match code {
            0 => {
                self.dead_handles = (0..named[1].min(12)).map(|i| 16 + 4 * i).collect();
                self.dead_pointers.append(&mut self.pointers);
                self.dead_pointers.truncate(20);
                self.handles.clear();
            }
            1 => {
                self.dead_handles.retain(|&handle| handle != value);
                self.handles.push(value);
            }
            2 => {
                self.dead_pointers.retain(|&pointer| pointer != value);
                self.pointers.push(value);
            }
            3 => Self::bury(&mut self.handles, &mut self.dead_handles, named[0]),
            4 => Self::bury(&mut self.pointers, &mut self.dead_pointers, named[0]),
            _ => {}
        }
    }

    fn bury(live: &mut Vec<u32>, dead: &mut Vec<u32>, which: u32) {
        live.retain(|&one| one != which);
        if dead.len() > 60 {
            dead.drain(..30);
        }
        dead.push(which);
    }

    // ------------------------------------------------------ choosing numbers

    fn word(&self, at: u32) -> u32 {
        let at = at as usize;
        self.zone.get(at..at + 4).map_or(0, |b| u32::from_be_bytes([b[0], b[1], b[2], b[3]]))
    }

    fn a_handle(&mut self) -> u32 {
        if self.random.once_in(24) {
            return match self.random.below(5) {
                0 => self.random.pick(&EDGES),
                1 => self.random.pick_or(&self.handles, 16) + 65_536,
                2 => self.random.pick_or(&self.handles, 16) + self.random.between(1, 3),
                3 => self.random.between(0, self.word(4) + 4),
                _ => self.random.pick_or(&self.dead_handles, 0),
            };
        }
        self.random.pick_or(&self.handles, 16)
    }

    fn a_pointer(&mut self) -> u32 {
        if self.random.once_in(16) {
            return match self.random.below(5) {
                0 => self.random.pick(&EDGES),
                1 => self.random.pick_or(&self.pointers, 64) + 65_536,
                2 => self.random.pick_or(&self.pointers, 64) + self.random.between(1, 4),
                3 => self.random.below(self.word(0) + 8),
                _ => self.random.pick_or(&self.dead_pointers, 4),
            };
        }
        self.random.pick_or(&self.pointers, 64)
    }

    fn data_size(&self, handle: u32) -> u32 {
        zone::size(&self.zone, zone::Target::Handle(handle)).unwrap_or(0)
    }

    /// Data bytes for an allocation: ordinary ones, or at the edge of the
    /// largest sum (less a header of 4 bytes), or at document 01's limits.
    fn a_size(&mut self, era: &Era) -> u32 {
        let (_, largest) = zone::sum(&self.zone).unwrap_or((0, 0));
        match self.random.below(40) {
            0 => self.random.pick(&EDGES),
            1 => self.random.any(),
            2 | 3 => (largest + self.random.below(8)).saturating_sub(4 + 3),
            4..=6 => self.random.below(largest + 1),
            7..=9 => self.random.below(largest / 4 + 1),
            10..=19 => self.random.below(13),
            _ => self.random.below(era.largest_block + 1),
        }
    }

    /// New data bytes for a resize: about the edges of its own bay's sum, of
    /// the largest sum, of its present size.
    fn a_new_size(&mut self, era: &Era, handle: u32) -> u32 {
        let old = self.data_size(handle);
        match self.random.below(10) {
            0 | 1 => (old + self.own_sum(handle) + self.random.below(9)).saturating_sub(4),
            2 | 3 => old + self.random.below(17),
            4 => self.random.below(old + 1),
            5 => old + self.random.below(self.own_sum(handle) + 1),
            6 => old.saturating_sub(self.random.below(9)),
            _ => self.a_size(era),
        }
    }

    /// Free bytes in the bay of a live handle's block, 0 for a dead one.
    fn own_sum(&self, handle: u32) -> u32 {
        if !self.handles.contains(&handle) {
            return 0;
        }
        let (mut at, length, block) = (self.word(4), self.word(0), self.word(handle) - 4);
        let (mut free, mut own) = (0, false);
        while at < length {
            let word = self.word(at);
            own |= at == block;
            let size = if word >> 30 == 0 { 2 * word } else { 2 * (word >> 16 & 0x3FFF) };
            match word >> 30 {
                0 => free += size,
                1 if own => break,
                1 => free = 0,
                _ => {}
            }
            at += size;
        }
        free
    }

    /// Free bytes in the first bay.
    fn first_sum(&self) -> u32 {
        let (mut at, length, mut free) = (self.word(4), self.word(0), 0);
        while at < length && self.word(at) >> 30 != 1 {
            let word = self.word(at);
            let size = if word >> 30 == 0 { 2 * word } else { 2 * (word >> 16 & 0x3FFF) };
            free += if word >> 30 == 0 { size } else { 0 };
            at += size;
        }
        free
    }

    // ------------------------------------------------------------ the records

    /// A zone from 16 to 65,536 bytes with 0 to 8,188 masters. A very short one
    /// soon has nothing new to show.
    fn begin_era(&mut self) -> Era {
        let length = 4 * match self.random.below(10) {
            0 => self.random.between(4, 12),
            1 | 2 => self.random.between(8, 40),
            3..=5 => self.random.between(32, 300),
            6 | 7 => self.random.between(200, 3_000),
            8 => self.random.between(2_000, 16_384),
            _ => 16_384,
        };
        let room = (length - 16) / 4;
        let m = match self.random.below(12) {
            0 => 0,
            1 => room.min(8_188),
            2 => self.random.below(room + 1).min(8_188),
            3..=5 => self.random.below(5).min(room),
            6..=8 => (room / 8).min(8_188),
            _ => self.random.below(room / 3 + 1).min(64),
        };
        self.call(0, &[length, m]);
        let data = length - 16 - 4 * m;
        let part = self.random.pick(&[3, 8, 20, 60, 200, 1_000]);
        Era {
            weights: self.random.pick(&TEMPERS),
            largest_block: (data / part).max(self.random.below(24)),
            fill_above: if self.random.once_in(2) { data / 8 } else { u32::MAX },
            left: self.random.pick(&[10, 40, 120, 400, 1_500]).min(length),
        }
    }

    /// A lower bay full of holes, some of them equal, and one block in the bay
    /// above it; then allocations below, and a resize that the upper bay has no
    /// room for: where they go, document 02's choice decides.
    fn holes_in_two_bays(&mut self) {
        let step = 4 * self.random.between(1, 6);
        let count = self.random.between(3, 9);
        let sizes: Vec<u32> = (0..count).map(|_| 12 + step * self.random.below(3)).collect();
        let lower: u32 = sizes.iter().map(|size| 4 + size + 4).sum();
        let m = 2 * count + 1;
        self.call(0, &[16 + 4 * m + lower + 4 + 12, m]);
        let above = self.call(2, &[8]).unwrap_or(0);
        self.call(2, &[0]);
        self.call(4, &[above]);
        let below = sizes.iter().filter_map(|&size| self.block_and_keeper(size));
        let below: Vec<u32> = below.collect();
        let upper = self.call(1, &[8]).unwrap_or(0);
        self.mark(upper);
        for handle in below {
            self.call(3, &[handle]);
        }
        for _ in 0..self.random.below(3) {
            let c = self.random.pick(&sizes) - self.random.below(12);
            if let Some(handle) = self.call(1, &[c]) {
                self.mark(handle);
            }
        }
        let c = self.random.pick(&sizes) - self.random.below(4);
        self.call(5, &[upper, c]);
        self.look();
    }

    /// A block that is to be freed, and one of no data byte that keeps the hole
    /// apart from the next.
    fn block_and_keeper(&mut self, size: u32) -> Option<u32> {
        let block = self.call(1, &[size]);
        self.call(1, &[0]);
        block
    }

    /// Allocations where no master is free: they make the pool of masters grow,
    /// or find too little for that (document 02, U3).
    fn masters_run_out(&mut self) {
        let upper = self.no_free_master();
        for _ in 0..self.random.between(1, 3) {
            let c = self.a_size_about_32_less(upper);
            if let Some(handle) = self.call(1, &[c]) {
                self.mark_ends(handle);
            }
        }
        if self.random.once_in(3) {
            for _ in 0..10 {
                self.call(1, &[0]);
            }
        }
        self.look_at_ends();
    }

    /// A zone whose masters are all in use: blocks in its first bay with holes
    /// between them, and maybe a bay above it, whose bytes are answered.
    fn no_free_master(&mut self) -> u32 {
        let m = self.random.below(7);
        let sizes: Vec<u32> = (0..m).map(|_| 4 * self.random.below(14)).collect();
        let lower = sizes.iter().map(|size| 4 + size).sum::<u32>() + 4 * self.random.below(20);
        let upper = 4 * self.random.below(2) * self.random.between(1, 16);
        let wall = if upper > 0 { 4 } else { 0 };
        self.call(0, &[16 + 4 * m + lower + wall + upper, m]);
        if upper > 0 {
            let above = self.call(2, &[upper - 4]).unwrap_or(0);
            self.call(2, &[0]);
            self.call(4, &[above]);
        }
        for size in sizes {
            if let Some(handle) = self.call(1, &[size]) {
                self.mark_ends(handle);
            }
        }
        for handle in self.handles.clone() {
            if self.random.once_in(2) {
                let less = self.random.below(self.data_size(handle) + 1);
                self.call(5, &[handle, less]);
                self.mark_ends(handle);
            }
        }
        if self.random.once_in(2) {
            self.again_elsewhere(upper);
        }
        upper
    }

    /// Data bytes for which the sums of the first bay and of another one are
    /// enough, just not enough, or enough before 32 bytes are taken; or few.
    fn a_size_about_32_less(&mut self, other_sum: u32) -> u32 {
        let first = self.first_sum();
        let less = self.random.below(4);
        let few = self.random.below(12);
        let sums = [few, other_sum, first, first, first.saturating_sub(32)];
        self.random.pick(&sums).saturating_sub(self.random.pick(&[0, 4, 8]) + less)
    }

    /// The first block freed and allocated anew, larger if there is room, so
    /// that the first bay may begin with a hole.
    fn again_elsewhere(&mut self, upper: u32) {
        let Some(&first) = self.handles.first() else { return };
        let size = self.data_size(first);
        self.call(3, &[first]);
        for c in [size + 4, upper.saturating_sub(4), size] {
            if let Some(handle) = self.call(1, &[c]) {
                self.mark_ends(handle);
                return;
            }
        }
    }

    /// Bytes at both ends of a block's data.
    fn mark_ends(&mut self, handle: u32) {
        if let Some(last) = self.data_size(handle).checked_sub(1) {
            for offset in [0, last] {
                let byte = self.random.any();
                self.call(6, &[handle, offset, byte]);
            }
        }
    }

    /// Reads the bytes at both ends of every block.
    fn look_at_ends(&mut self) {
        for handle in self.handles.clone() {
            if let Some(last) = self.data_size(handle).checked_sub(1) {
                self.call(7, &[handle, 0]);
                self.call(7, &[handle, last]);
            }
        }
    }

    /// Allocations from so many masters on until the pool cannot grow. The
    /// first block has bytes, and goes up each time.
    fn to_the_limit(&mut self, m: u32) {
        self.call(0, &[BUFFER as u32, m]);
        let first = self.call(1, &[4]).unwrap_or(0);
        self.mark_ends(first);
        while self.left > 0 && self.call(1, &[0]).is_some() {}
        self.look_at_ends();
        self.call(8, &[]);
        self.call(1, &[0]);
    }

    /// Calls of every code that come before an accepted initialize: "1 0".
    fn before_the_first(&mut self) {
        for _ in 0..self.random.below(14) {
            let code = self.random.between(1, 10) as u8;
            let (a, b) = (self.random.pick(&EDGES), self.random.pick(&EDGES));
            self.call(code, &[a, b]);
            if self.random.once_in(4) {
                self.refused_initialize();
            }
            if self.random.once_in(4) {
                self.skipped();
            }
        }
    }

    fn refused_initialize(&mut self) {
        let random = &mut self.random;
        let length = 4 * random.between(4, 16_384);
        let named = match random.below(8) {
            0 => [length + random.between(1, 3), 0],
            1 => [length, (length - 16) / 4 + random.between(1, 3)],
            2 => [65_536 + 4 * random.between(1, 1_000), 4],
            3 => [1_048_576 + 4 * random.below(2), random.below(9)],
            4 => [65_536, random.between(8_189, 16_380)],
            5 => [length, 0x4000_0000],
            6 => [4 * random.below(4), 0],
            _ => [0xFFFF_FFFC, random.any()],
        };
        self.call(0, &named);
    }

    /// "Code above 10, or bytes 1 to 3 not zero".
    fn skipped(&mut self) {
        let mut record = [0; RECORD];
        for byte in &mut record[4..] {
            *byte = self.random.any() as u8;
        }
        if self.random.once_in(2) {
            record[0] = self.random.between(11, 255) as u8;
        } else {
            record[0] = self.random.between(0, 10) as u8;
            record[self.random.between(1, 3) as usize] = self.random.between(1, 255) as u8;
            // what the record would do if it were not skipped
            let handle = self.random.pick_or(&self.handles, 16);
            record[4..8].copy_from_slice(&handle.to_be_bytes());
        }
        self.emit(record);
    }

    /// Bytes at the ends of a new or grown block, so that slides show.
    fn mark(&mut self, handle: u32) {
        let size = self.data_size(handle);
        for offset in [0, size.wrapping_sub(1), self.random.below(size + 1)] {
            if self.random.once_in(2) {
                let byte = self.random.any();
                self.call(6, &[handle, offset, byte]);
            }
        }
    }

    /// Reads a byte of some block, at its ends mostly: where one is marked.
    fn look(&mut self) {
        let handle = self.random.pick_or(&self.handles, 16);
        let size = self.data_size(handle);
        let offset = self.random.pick(&[0, size.wrapping_sub(1), size / 2]);
        self.call(7, &[handle, offset]);
    }

    fn an_offset(&mut self, handle: u32) -> u32 {
        let size = self.data_size(handle);
        match self.random.below(20) {
            0 => size,
            1 => self.random.pick(&EDGES),
            2..=5 => size.saturating_sub(1),
            _ => self.random.below(size),
        }
    }

    /// One call of the era, with its following writes.
    fn one_call(&mut self, era: &Era) {
        let mut code = self.random.weighted(&era.weights) as u8;
        let (total, _) = zone::sum(&self.zone).unwrap_or((0, 0));
        if total > era.fill_above && (3..=4).contains(&code) {
            code -= 2;
        }
        match code {
            1 => {
                let c = self.a_size(era);
                if let Some(handle) = self.call(1, &[c]) {
                    self.mark(handle);
                }
            }
            2 => {
                let c = self.a_size(era);
                self.call(2, &[c]);
            }
            3 => {
                let handle = self.a_handle();
                self.call(3, &[handle]);
            }
            4 => {
                let pointer = self.a_pointer();
                self.call(4, &[pointer]);
            }
            5 => {
                let handle = self.a_handle();
                let c = self.a_new_size(era, handle);
                if self.call(5, &[handle, c]).is_some() && self.random.once_in(2) {
                    self.mark(handle);
                }
            }
            6 | 7 => {
                let handle = self.a_handle();
                let offset = self.an_offset(handle);
                let byte = self.random.any();
                let named = if code == 6 { 3 } else { 2 };
                self.call(code, &[handle, offset, byte][..named]);
            }
            8 => {
                self.call(8, &[]);
            }
            9 => {
                let k = match self.random.below(8) {
                    0 => self.random.pick(&EDGES),
                    1 => 65_536 - self.word(0) + 4 * self.random.below(2),
                    2 => self.random.any(),
                    3 => self.random.below(64),
                    _ => 4 * self.random.below(self.word(0) / 32 + 8),
                };
                self.call(9, &[k]);
            }
            _ => {
                let k = match self.random.below(8) {
                    0 => self.random.pick(&EDGES),
                    1 => total + self.random.below(8),
                    _ => self.random.below(self.word(0) / 8 + 8),
                };
                self.call(10, &[k]);
            }
        }
    }

    fn whole_list(&mut self) {
        self.before_the_first();
        while self.left > 0 {
            if self.random.once_in(4) {
                self.holes_in_two_bays();
            }
            for _ in 0..self.random.below(8) {
                self.masters_run_out();
            }
            let mut era = self.begin_era();
            while era.left > 0 && self.left > 0 {
                era.left -= 1;
                if self.random.once_in(120) {
                    self.refused_initialize();
                } else if self.random.once_in(80) {
                    self.skipped();
                } else {
                    self.one_call(&era);
                    if self.random.once_in(3) {
                        self.look();
                    }
                }
            }
        }
        // "a short last record is ignored"
        if self.random.once_in(3) {
            let short = self.random.between(1, 15) as usize;
            self.output.extend_from_slice(&[1; RECORD][..short]);
        }
    }
}

/// The list of `count` records that belongs to this seed, and what it meets.
pub fn list(seed: u64, count: u64) -> (Vec<u8>, Coverage) {
    let mut generator = Generator::new(seed, count);
    generator.whole_list();
    generator.end()
}

/// A list in which the pool of masters grows up to document 01's limit of 8,188,
/// and one in which it ends at 8,181, for eight more would be too many.
#[allow(dead_code)]
pub fn masters_to_the_limit() -> (Vec<u8>, Coverage) {
    const MOST: u64 = 2 * 8_300;
    let mut generator = Generator::new(0, MOST);
    generator.to_the_limit(4);
    generator.to_the_limit(5);
    generator.end()
}
