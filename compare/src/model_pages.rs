//! The naive model's pages (document 02, U5). A create that needs room tries
//! things out on a copy of the structure: all unlocked pages gone, or one after
//! the other, each time the one that is due in what is left.

use super::{big_endian, bytes_of, padded, Item, Picture};

/// A page: document 02's named block.
#[derive(Clone, Debug, PartialEq, Eq)]
pub struct Page {
    pub name: u32,
    pub dirty: bool,
    pub lock: bool,
    pub stamp: u8,
    pub data: Vec<u8>,
}

impl Page {
    /// From all bytes of its block.
    pub fn decode(block: &[u8]) -> Page {
        Page {
            name: big_endian(&block[2..6]) as u32,
            dirty: block[6] >= 128,
            lock: block[6] % 128 >= 64,
            stamp: block[7],
            data: block[8..].to_vec(),
        }
    }

    pub fn encode(&self) -> Vec<u8> {
        let flags = 128 * u8::from(self.dirty) + 64 * u8::from(self.lock);
        let mut block = bytes_of(0xC000 + (8 + self.data.len()) / 2, 2);
        block.extend(bytes_of(self.name as usize, 4));
        block.extend([flags, self.stamp]);
        block.extend(&self.data);
        block
    }
}

impl Picture {
    pub fn pages(&self) -> impl Iterator<Item = &Page> {
        self.items.iter().filter_map(|item| match item {
            Item::Page(page) => Some(page),
            _ => None,
        })
    }

    pub(super) fn of_name(&self, wanted: u32) -> Option<usize> {
        self.items.iter().position(|item| matches!(item, Item::Page(page) if page.name == wanted))
    }

    /// The data offset of the page of this name.
    pub fn place_of(&self, name: u32) -> Option<u32> {
        self.of_name(name).map(|index| self.start_of(index) as u32 + 8)
    }

    fn page(&mut self, name: u32) -> Option<&mut Page> {
        self.items.iter_mut().find_map(|item| match item {
            Item::Page(page) if page.name == name => Some(page),
            _ => None,
        })
    }

    pub(super) fn change(
        &mut self,
        name: u32,
        change: impl Fn(&mut Page),
    ) -> Result<Vec<u32>, u32> {
        self.page(name).map(change).ok_or(13u32)?;
        Ok(vec![])
    }

    /// One step of the clock, and the page's stamp is that.
    fn stamp(&mut self, name: u32) -> Option<u32> {
        let clock = ((u32::from(self.clock) + 1) % 256) as u8;
        self.page(name)?.stamp = clock;
        self.clock = clock;
        self.place_of(name)
    }

    pub(super) fn use_page(&mut self, name: u32) -> Result<u32, u32> {
        self.stamp(name).ok_or(13)
    }

    /// Clock minus stamp, which is negative where the clock has gone round.
    fn age(&self, page: &Page) -> i32 {
        (i32::from(self.clock) - i32::from(page.stamp)).rem_euclid(256)
    }

    /// The page that goes next: of the unlocked ones the oldest, and of these
    /// the one with the least name.
    fn due(&self) -> Option<Page> {
        let unlocked = || self.pages().filter(|page| !page.lock);
        let oldest = unlocked().map(|page| self.age(page)).max()?;
        unlocked().filter(|page| self.age(page) == oldest).min_by_key(|page| page.name).cloned()
    }

    fn without(&self, goes: impl Fn(&Page) -> bool) -> Picture {
        let mut other = self.clone();
        for item in &mut other.items {
            if matches!(item, Item::Page(page) if goes(page)) {
                *item = Item::Free(item.size());
            }
        }
        other.normalize();
        other
    }

    fn has_room(&self, need: usize) -> bool {
        self.bays().iter().any(|bay| self.sum_of(bay) >= need)
    }

    /// The data offset, or the refusal's number and value.
    pub(super) fn create_page(&mut self, name: u32, c: u32) -> Result<u32, (u32, u32)> {
        if self.of_name(name).is_some() {
            return Err((11, 0));
        }
        if c > 32_756 {
            return Err((3, 0));
        }
        let data = vec![0; padded(c as usize, 8)];
        let need = 8 + data.len();
        if !self.without(|page| !page.lock).has_room(need) {
            return Err((5, 0));
        }
        while !self.has_room(need) {
            let due = self.due().expect("without all unlocked pages there is room");
            if due.dirty {
                return Err((12, due.name));
            }
            *self = self.without(|page| page.name == due.name);
        }
        let page = Page { name, dirty: false, lock: false, stamp: 0, data };
        assert!(self.place_low(Item::Page(page)), "there is room");
        self.normalize();
        Ok(self.stamp(name).expect("the page is there"))
    }
}
