//! A second, naive implementation: the bytes are decoded into a structure, the
//! call is done on the structure, and the structure is encoded again. Nothing
//! of the first implementation is used; speed is no aim.

use crate::calls::{Call, Reply};
use crate::rules;
#[path = "model_census.rs"]
pub mod census;
#[path = "model_pages.rs"]
mod pages;
use crate::zone::{Stretch, Target};

pub use pages::Page;

#[derive(Clone, Debug, PartialEq, Eq)]
pub enum Item {
    Free(usize),
    Fixed(Vec<u8>),
    Relocatable(u32, Vec<u8>),
    Page(Page),
}

impl Item {
    pub fn size(&self) -> usize {
        match self {
            Item::Free(size) => *size,
            Item::Fixed(data) | Item::Relocatable(_, data) => 4 + data.len(),
            Item::Page(page) => 8 + page.data.len(),
        }
    }

    fn is_fixed(&self) -> bool {
        matches!(self, Item::Fixed(_))
    }

    fn free_size(&self) -> usize {
        if let Item::Free(size) = self {
            *size
        } else {
            0
        }
    }
}

/// A zone as a structure. Blocks are a list; offsets follow from their sizes.
#[derive(Clone, Debug)]
pub struct Picture {
    pub length: usize,
    pub m: usize,
    /// free masters, the chain's head first
    pub chain: Vec<u32>,
    /// of which ages count (document 02, U5)
    pub clock: u8,
    pub items: Vec<Item>,
}

fn big_endian(bytes: &[u8]) -> usize {
    bytes.iter().fold(0, |value, &byte| value << 8 | byte as usize)
}

fn bytes_of(value: usize, width: usize) -> Vec<u8> {
    (0..width).rev().map(|i| (value >> (8 * i)) as u8).collect()
}

/// The data size of a block for c bytes: what up4 leaves beside the header.
fn padded(c: usize, header: usize) -> usize {
    (header + c).div_ceil(4) * 4 - header
}

/// The smallest free item that is big enough, the first of equals (document 02,
/// U2).
fn tightest(items: &[Item], need: usize) -> Option<usize> {
    let fitting = (0..items.len()).filter(|&i| items[i].free_size() >= need);
    fitting.min_by_key(|&i| items[i].free_size())
}

impl Picture {
    /// The structure of a well-formed zone.
    pub fn decode(buffer: &[u8]) -> Picture {
        let length = big_endian(&buffer[0..4]);
        let m = big_endian(&buffer[8..12]);
        let mut chain = Vec::new();
        let mut link = big_endian(&buffer[12..14]);
        while link != 0 {
            chain.push(link as u32);
            link = big_endian(&buffer[link..link + 4]);
        }
        let mut items = Vec::new();
        let mut rest = &buffer[16 + 4 * m..length];
        while !rest.is_empty() {
            let short = 2 * (big_endian(&rest[..2]) & 0x3FFF);
            let item = match rest[0] >> 6 {
                0 => Item::Free(2 * big_endian(&rest[..4])),
                1 => Item::Fixed(rest[4..short].to_vec()),
                2 => Item::Relocatable(big_endian(&rest[2..4]) as u32, rest[4..short].to_vec()),
                _ => Item::Page(Page::decode(&rest[..short])),
            };
            rest = &rest[item.size()..];
            items.push(item);
        }
        Picture { length, m, chain, clock: buffer[14], items }
    }

    /// All L bytes of the structure.
    pub fn encode(&self) -> Vec<u8> {
        let mut masters = vec![0; self.m];
        let mut links = self.chain.iter().skip(1);
        for &free in &self.chain {
            masters[(free as usize - 16) / 4] = links.next().map_or(0, |&next| next as usize);
        }
        let mut body = Vec::new();
        for item in &self.items {
            match item {
                Item::Free(size) => {
                    body.extend(bytes_of(size / 2, 4));
                    body.extend(vec![0; size - 4]);
                }
                Item::Fixed(data) => {
                    body.extend(bytes_of(0x4000 + item.size() / 2, 2));
                    body.extend(bytes_of(0, 2));
                    body.extend(data);
                }
                Item::Relocatable(handle, data) => {
                    body.extend(bytes_of(0x8000 + item.size() / 2, 2));
                    body.extend(bytes_of(*handle as usize, 2));
                    masters[(*handle as usize - 16) / 4] = 16 + 4 * self.m + body.len();
                    body.extend(data);
                }
                Item::Page(page) => body.extend(page.encode()),
            }
        }
        let mut bytes = bytes_of(self.length, 4);
        bytes.extend(bytes_of(16 + 4 * self.m, 4));
        bytes.extend(bytes_of(self.m, 4));
        bytes.extend(bytes_of(self.chain.first().map_or(0, |&head| head as usize), 2));
        bytes.extend([self.clock, 0]);
        bytes.extend(masters.into_iter().flat_map(|master| bytes_of(master, 4)));
        bytes.extend(body);
        assert_eq!(bytes.len(), self.length, "the blocks don't fill the zone");
        bytes
    }

    fn start_of(&self, index: usize) -> usize {
        16 + 4 * self.m + self.items[..index].iter().map(Item::size).sum::<usize>()
    }

    /// Neighbouring free items become one, and items of size 0 go.
    fn normalize(&mut self) {
        let mut items: Vec<Item> = Vec::new();
        for item in self.items.drain(..) {
            match (items.last_mut(), item) {
                (_, Item::Free(0)) => {}
                (Some(Item::Free(before)), Item::Free(size)) => *before += size,
                (_, item) => items.push(item),
            }
        }
        self.items = items;
    }

    // ---------------------------------------------------------------- bays

    /// The bays as ranges of items.
    fn bays(&self) -> Vec<std::ops::Range<usize>> {
        let mut ends: Vec<usize> =
            (0..self.items.len()).filter(|&i| self.items[i].is_fixed()).collect();
        ends.push(self.items.len());
        let mut start = 0;
        let mut bays = Vec::new();
        for end in ends {
            bays.push(start..end);
            start = end + 1;
        }
        bays
    }

    fn sum_of(&self, bay: &std::ops::Range<usize>) -> usize {
        self.items[bay.clone()].iter().map(Item::free_size).sum()
    }

    /// The bay's items as compacted: the blocks, then the one free item.
    fn compacted(&self, bay: &std::ops::Range<usize>) -> Vec<Item> {
        let mut items: Vec<Item> =
            self.items[bay.clone()].iter().filter(|item| item.free_size() == 0).cloned().collect();
        items.push(Item::Free(self.sum_of(bay)));
        items
    }

    /// Puts a new block into the lowest bay whose sum reaches its size, there
    /// into the tightest free item.
    fn place_low(&mut self, block: Item) -> bool {
        let need = block.size();
        let Some(bay) = self.bays().into_iter().find(|bay| self.sum_of(bay) >= need) else {
            return false;
        };
        let mut items = self.items[bay.clone()].to_vec();
        if tightest(&items, need).is_none() {
            items = self.compacted(&bay);
        }
        let at = tightest(&items, need).unwrap();
        let left = items[at].free_size() - need;
        items.splice(at..at + 1, [block, Item::Free(left)]);
        self.items.splice(bay, items);
        true
    }

    /// Eight masters more, ascending, in place of the first bay's 32 first bytes;
    /// the bay is laid out as compacted behind them (document 02, U3).
    fn add_masters(&mut self) -> Result<(), u32> {
        let first = self.bays().remove(0);
        let sum = self.sum_of(&first);
        if self.m + 8 > 8_188 || sum < 32 {
            return Err(4);
        }
        let mut items = self.compacted(&first);
        items.pop();
        items.push(Item::Free(sum - 32));
        self.items.splice(first, items);
        self.chain = (self.m..self.m + 8).map(|i| 16 + 4 * i as u32).collect();
        self.m += 8;
        Ok(())
    }

    /// Puts a new fixed block at the end of the highest bay whose sum reaches
    /// its size, and gives its item's index.
    fn place_high(&mut self, block: Item) -> Option<usize> {
        let need = block.size();
        let bay = self.bays().into_iter().rev().find(|bay| self.sum_of(bay) >= need)?;
        let mut items = self.items[bay.clone()].to_vec();
        if items.last().map_or(0, Item::free_size) < need {
            items = self.compacted(&bay);
        }
        let left = items.pop().unwrap().free_size() - need;
        items.extend([Item::Free(left), block]);
        let index = bay.start + items.len() - 1;
        self.items.splice(bay, items);
        Some(index)
    }

    // --------------------------------------------------------------- blocks

    fn of_handle(&self, wanted: u32) -> Option<usize> {
        self.items.iter().position(
            |item| matches!(item, Item::Relocatable(handle, _) if *handle == wanted),
        )
    }

    fn of_pointer(&self, pointer: u32) -> Option<usize> {
        let mut at = 16 + 4 * self.m;
        for (index, item) in self.items.iter().enumerate() {
            if item.is_fixed() && at + 4 == pointer as usize {
                return Some(index);
            }
            at += item.size();
        }
        None
    }

    /// The item that is meant, or refusal 6, 7 or 13.
    fn of_target(&self, target: Target) -> Result<usize, u32> {
        match target {
            Target::Handle(handle) => self.of_handle(handle).ok_or(6),
            Target::Pointer(pointer) => self.of_pointer(pointer).ok_or(7),
            Target::Name(name) => self.of_name(name).ok_or(13),
        }
    }

    fn data(&mut self, index: usize) -> &mut Vec<u8> {
        match &mut self.items[index] {
            Item::Fixed(data) | Item::Relocatable(_, data) => data,
            Item::Page(page) => &mut page.data,
            Item::Free(_) => unreachable!("a free block has no data"),
        }
    }

    fn part(&mut self, stretch: &Stretch) -> Result<&mut [u8], u32> {
        let index = self.of_target(stretch.block)?;
        let (start, count) = (stretch.offset as u64, stretch.count as u64);
        let data = self.data(index);
        if start + count > data.len() as u64 {
            return Err(8);
        }
        Ok(&mut data[start as usize..(start + count) as usize])
    }

    /// The live handles as their blocks stand.
    pub fn handles(&self) -> Vec<u32> {
        let handle = |item: &Item| match item {
            Item::Relocatable(handle, _) => Some(*handle),
            _ => None,
        };
        self.items.iter().filter_map(handle).collect()
    }

    /// The live handles with their data sizes, by rising handle.
    fn live(&self) -> Vec<(u32, usize)> {
        let mut live: Vec<(u32, usize)> = self
            .items
            .iter()
            .filter_map(|item| match item {
                Item::Relocatable(handle, data) => Some((*handle, data.len())),
                _ => None,
            })
            .collect();
        live.sort();
        live
    }

    fn resize(&mut self, handle: u32, c: u32) -> Result<(), u32> {
        let index = self.of_handle(handle).ok_or(6u32)?;
        if c > 32_760 {
            return Err(3);
        }
        let (new, old) = (padded(c as usize, 4), self.data(index).len());
        let mut grown = self.data(index).clone();
        grown.resize(new, 0);
        let grown = Item::Relocatable(handle, grown);
        if new <= old {
            self.items.splice(index..index + 1, [grown, Item::Free(old - new)]);
            return Ok(());
        }
        let more = new - old;
        let own = self.bays().into_iter().find(|bay| bay.contains(&index)).unwrap();
        if self.sum_of(&own) < more {
            // elsewhere, and a free item in the old place: for a moment the
            // handle has two items, told apart by their sizes
            if !self.place_low(grown) {
                return Err(5);
            }
            for item in &mut self.items {
                if matches!(item, Item::Relocatable(one, data) if *one == handle && data.len() == old) {
                    *item = Item::Free(4 + old);
                }
            }
            return Ok(());
        }
        let next = if index + 1 < own.end { self.items[index + 1].free_size() } else { 0 };
        if next >= more {
            self.items.splice(index..index + 2, [grown, Item::Free(next - more)]);
        } else {
            let mut items = self.compacted(&own);
            let left = items.pop().unwrap().free_size() - more;
            for item in &mut items {
                if matches!(item, Item::Relocatable(one, _) if *one == handle) {
                    *item = grown.clone();
                }
            }
            items.push(Item::Free(left));
            self.items.splice(own, items);
        }
        Ok(())
    }

    fn shrink(&mut self, k: u32) -> usize {
        let last = self.bays().pop().unwrap();
        let strip = (k as usize / 4 * 4).min(self.sum_of(&last));
        if strip == 0 {
            return 0;
        }
        if self.items.last().map_or(0, Item::free_size) < strip {
            let items = self.compacted(&last);
            self.items.splice(last, items);
        }
        if let Some(Item::Free(size)) = self.items.last_mut() {
            *size -= strip;
        }
        self.length -= strip;
        strip
    }

    // ---------------------------------------------------------------- calls

    /// The call on the structure: its values, or the refusal's number.
    fn perform(&mut self, call: &Call, room: usize, second: &mut [u8]) -> Result<Vec<u32>, u32> {
        let values = match *call {
            Call::Initialize(..) | Call::Check | Call::View(_) => unreachable!(),
            Call::CreatePage(..) => unreachable!("its refusal may have a value"),
            Call::Relocatable(c) => {
                if c > 32_760 {
                    return Err(3);
                }
                if self.chain.is_empty() {
                    self.add_masters()?;
                }
                let handle = self.chain[0];
                // refused with 5, the structure goes and the bytes are the old ones
                if !self.place_low(Item::Relocatable(handle, vec![0; padded(c as usize, 4)])) {
                    return Err(5);
                }
                self.chain.remove(0);
                vec![handle]
            }
            Call::Fixed(c) => {
                if c > 32_760 {
                    return Err(3);
                }
                let block = Item::Fixed(vec![0; padded(c as usize, 4)]);
                let index = self.place_high(block).ok_or(5u32)?;
                vec![self.start_of(index) as u32 + 4]
            }
            Call::FreeHandle(handle) => {
                let index = self.of_handle(handle).ok_or(6u32)?;
                self.items[index] = Item::Free(self.items[index].size());
                self.chain.insert(0, handle);
                vec![]
            }
            Call::FreePointer(pointer) => {
                let index = self.of_pointer(pointer).ok_or(7u32)?;
                self.items[index] = Item::Free(self.items[index].size());
                vec![]
            }
            Call::Resize(handle, c) => self.resize(handle, c).map(|()| vec![])?,
            Call::Size(target) => {
                let index = self.of_target(target)?;
                vec![self.data(index).len() as u32]
            }
            Call::Read(stretch) => {
                let part = self.part(&stretch)?;
                if second.len() < part.len() {
                    return Err(10);
                }
                second[..part.len()].copy_from_slice(part);
                vec![]
            }
            Call::Write(stretch) => {
                let part = self.part(&stretch)?;
                if second.len() < part.len() {
                    return Err(10);
                }
                part.copy_from_slice(&second[..part.len()]);
                vec![]
            }
            Call::Compact => {
                let largest = self.bays().iter().map(|bay| self.sum_of(bay)).max();
                for bay in self.bays().into_iter().rev() {
                    let items = self.compacted(&bay);
                    self.items.splice(bay, items);
                }
                vec![largest.unwrap() as u32]
            }
            Call::Sum => {
                let sums: Vec<usize> = self.bays().iter().map(|bay| self.sum_of(bay)).collect();
                vec![sums.iter().sum::<usize>() as u32, *sums.iter().max().unwrap() as u32]
            }
            Call::Length => vec![self.length as u32],
            Call::Enlarge(k) => {
                let new = self.length as u64 + u64::from(k);
                if k % 4 != 0 || new > room as u64 || new > 1_048_576 {
                    return Err(9);
                }
                self.items.push(Item::Free(k as usize));
                self.length = new as usize;
                vec![]
            }
            Call::Shrink(k) => vec![self.shrink(k) as u32],
            Call::Roster => {
                let live = self.live();
                if second.len() < 8 * live.len() {
                    return Err(10);
                }
                for (record, (handle, size)) in second.chunks_mut(8).zip(&live) {
                    record.copy_from_slice(&[bytes_of(*handle as usize, 4), bytes_of(*size, 4)].concat());
                }
                vec![live.len() as u32]
            }
            Call::Census => {
                let sizes = self.items.iter().map(Item::free_size).filter(|&size| size > 0);
                census::census(&sizes.map(|size| size / 2).collect::<Vec<usize>>(), second)?
            }
            Call::WalkerStart => vec![16 + 4 * self.m as u32],
            Call::WalkerStep(offset) => {
                let mut start = 16 + 4 * self.m as u32;
                let mut answer = vec![0, 0, 0, offset];
                for item in &self.items {
                    let (kind, size) = match item {
                        Item::Free(size) => (0, *size as u32),
                        Item::Fixed(_) => (1, item.size() as u32),
                        Item::Relocatable(..) => (2, item.size() as u32),
                        Item::Page(_) => (3, item.size() as u32),
                    };
                    if start == offset {
                        answer = vec![kind, start, size, start + size];
                    }
                    start += size;
                }
                answer
            }
            Call::UsePage(name) => vec![self.use_page(name)?],
            Call::SetDirty(name) => self.change(name, |page| page.dirty = true)?,
            Call::ClearDirty(name) => self.change(name, |page| page.dirty = false)?,
            Call::SetLock(name) => self.change(name, |page| page.lock = true)?,
            Call::ClearLock(name) => self.change(name, |page| page.lock = false)?,
            Call::DropPage(name) => {
                let index = self.of_name(name).ok_or(13u32)?;
                self.items[index] = Item::Free(self.items[index].size());
                vec![]
            }
        };
        Ok(values)
    }
}

fn initialize(buffer: &mut [u8], length: u32, m: u32) -> Result<(), u32> {
    let (wide, masters) = (u64::from(length), u64::from(m));
    if wide % 4 != 0
        || wide < 16 + 4 * masters
        || wide > buffer.len() as u64
        || wide > 1_048_576
        || masters > 8_188
    {
        return Err(2);
    }
    let mut picture = Picture {
        length: length as usize,
        m: m as usize,
        chain: (0..m).map(|i| 16 + 4 * i).collect(),
        clock: 0,
        items: vec![Item::Free((wide - 16 - 4 * masters) as usize)],
    };
    picture.normalize();
    buffer[..length as usize].copy_from_slice(&picture.encode());
    Ok(())
}

/// Asks the model: the same as `calls::ask_zone`.
pub fn ask_model(buffer: &mut [u8], call: &Call, second: &mut [u8]) -> Reply {
    match *call {
        Call::Initialize(length, m) => {
            let refusal = initialize(buffer, length, m).err().unwrap_or(0);
            return Reply::new(refusal, &[]);
        }
        Call::Check => {
            let (yes, live) = rules::check(buffer);
            return Reply::new(0, &[u32::from(yes), live]);
        }
        _ => {}
    }
    if rules::broken_rule(buffer).is_some() {
        return Reply::refused(1, call);
    }
    let mut picture = Picture::decode(buffer);
    if let Call::View(stretch) = call {
        return match picture.part(stretch) {
            Ok(part) => Reply::of_view(part),
            Err(_) => Reply::of_view(&[]),
        };
    }
    let old_length = picture.length;
    let outcome = match *call {
        Call::CreatePage(name, c) => match picture.create_page(name, c) {
            Err((refusal, value)) => return Reply::new(refusal, &[value]),
            Ok(place) => Ok(vec![place]),
        },
        _ => picture.perform(call, buffer.len(), second),
    };
    match outcome {
        Err(refusal) => Reply::refused(refusal, call),
        Ok(values) => {
            picture.normalize();
            // "Stripped bytes are zeroed"; no other byte beyond L changes
            if picture.length < old_length {
                buffer[picture.length..old_length].fill(0);
            }
            buffer[..picture.length].copy_from_slice(&picture.encode());
            Reply::new(0, &values)
        }
    }
}
