//! The ledger's pages (document 02, U5): "the clock and, in each bay, names with
//! bytes, flags and stamps". Which pages a create drops is found as the least
//! number of them, in their order, without which some sum reaches the need.

use super::{up4, Bay, Ledger};
use std::collections::HashMap;

/// A page: document 02's named block.
#[derive(Clone, Debug)]
pub struct Page {
    name: u32,
    pub data: Vec<u8>,
    pub dirty: bool,
    pub lock: bool,
    stamp: u8,
}

impl Page {
    pub fn takes(&self) -> u64 {
        8 + self.data.len() as u64
    }

    /// "Age is clock minus stamp, modulo 256".
    fn age(&self, clock: u8) -> u32 {
        (256 + u32::from(clock) - u32::from(self.stamp)) % 256
    }
}

/// The largest sum of a bay, counted without these pages.
fn largest_sum_without(bays: &[Bay], gone: &[Page]) -> u64 {
    let is_gone = |page: &&Page| gone.iter().any(|other| other.name == page.name);
    let freed = |bay: &Bay| bay.pages.iter().filter(is_gone).map(Page::takes).sum::<u64>();
    bays.iter().map(|bay| bay.sum() + freed(bay)).max().unwrap_or(0)
}

impl Ledger {
    fn pages(&self) -> impl Iterator<Item = &Page> {
        self.bays.iter().flat_map(|bay| &bay.pages)
    }

    /// The page of this name, or 13.
    pub(super) fn page(&mut self, name: u32) -> Result<&mut Page, u32> {
        let mut pages = self.bays.iter_mut().flat_map(|bay| &mut bay.pages);
        pages.find(|page| page.name == name).ok_or(13)
    }

    /// A change that is no use of the page.
    pub(super) fn flag(&mut self, name: u32, change: impl Fn(&mut Page)) -> Result<Vec<u32>, u32> {
        change(self.page(name)?);
        Ok(vec![])
    }

    pub(super) fn drop_page(&mut self, name: u32) -> Result<Vec<u32>, u32> {
        self.page(name)?;
        for bay in &mut self.bays {
            bay.pages.retain(|page| page.name != name);
        }
        Ok(vec![])
    }

    pub(super) fn use_page(&mut self, name: u32) -> Result<(), u32> {
        let next = self.clock.wrapping_add(1);
        self.page(name)?.stamp = next;
        self.clock = next;
        Ok(())
    }

    /// The pages that may be dropped: "greatest age first, smaller name among
    /// equals".
    fn in_order(&self) -> Vec<Page> {
        let mut order: Vec<Page> = self.pages().filter(|page| !page.lock).cloned().collect();
        order.sort_by_key(|page| (255 - page.age(self.clock), page.name));
        order
    }

    /// Done, or the refusal's number and value.
    pub(super) fn create_page(&mut self, name: u32, c: u32) -> Result<(), (u32, u32)> {
        if self.pages().any(|page| page.name == name) {
            return Err((11, 0));
        }
        if c > 32_756 {
            return Err((3, 0));
        }
        let need = up4(8 + u64::from(c));
        let order = self.in_order();
        // "5 if dropping all unlocked blocks wouldn't do"
        let enough = |many: &usize| largest_sum_without(&self.bays, &order[..*many]) >= need;
        let dropped = &order[..(0..=order.len()).find(enough).ok_or((5, 0))?];
        // "the dropping would reach a dirty block [...] its value [...] is that
        // block's name"
        if let Some(page) = dropped.iter().find(|page| page.dirty) {
            return Err((12, page.name));
        }
        for page in dropped {
            self.drop_page(page.name).expect("it is one of the pages");
        }
        self.clock = self.clock.wrapping_add(1);
        let data = vec![0; need as usize - 8];
        let page = Page { name, data, dirty: false, lock: false, stamp: self.clock };
        let bay = self.bays.iter_mut().find(|bay| bay.sum() >= need);
        bay.expect("there is room now").pages.push(page);
        Ok(())
    }

    /// Whether the zone has just these pages, each with its bytes; and, which
    /// later answers will show, with its flags and stamp, and the clock.
    pub(super) fn pages_stand_in(&self, zone: &[u8]) -> bool {
        let mut found = pages_of(zone);
        let all = self.pages().all(|page| {
            let flags = u8::from(page.dirty) << 7 | u8::from(page.lock) << 6;
            found
                .remove(&page.name)
                .is_some_and(|block| block[6..8] == [flags, page.stamp] && block[8..] == page.data)
        });
        all && found.is_empty() && zone[14] == self.clock
    }
}

/// The blocks of type 3 in a well-formed zone, by name.
fn pages_of(zone: &[u8]) -> HashMap<u32, &[u8]> {
    let number =
        |at: usize| u32::from_be_bytes([zone[at], zone[at + 1], zone[at + 2], zone[at + 3]]);
    let mut pages = HashMap::new();
    let (mut at, end) = (number(4) as usize, number(0) as usize);
    while at < end {
        let header = number(at);
        let words = if header >> 30 == 0 { header } else { header << 2 >> 18 };
        let size = 2 * words as usize;
        if header >> 30 == 3 {
            pages.insert(number(at + 2), &zone[at..at + size]);
        }
        at += size;
    }
    pages
}
