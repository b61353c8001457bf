//! The ledger of document 01, with document 02's requests that have landed: fed
//! the calls alone, it holds no place of a relocatable block or a page and never
//! reads the zone.

use crate::calls::{Call, Reply};
use crate::zone::{Stretch, Target};
#[path = "ledger_pages.rs"]
mod pages;

use pages::Page;

#[derive(Clone, Debug, Default)]
struct Bay {
    capacity: u64,
    /// live handles with their bytes
    live: Vec<(u32, Vec<u8>)>,
    pages: Vec<Page>,
}

impl Bay {
    /// "its capacity less, for each handle, 4 plus data size"; pages are "each
    /// taking 8 plus its data size from the sum" (document 02, U5)
    fn sum(&self) -> u64 {
        let handles = self.live.iter().map(|(_, data)| 4 + data.len() as u64).sum::<u64>();
        self.capacity - handles - self.pages.iter().map(Page::takes).sum::<u64>()
    }
}

#[derive(Clone, Debug)]
struct Fixed {
    place: u64,
    size: u64,
    data: Vec<u8>,
}

/// "in address order, bays [...] and fixed blocks": bay i stands before fixed
/// block i, and there is one bay more.
#[derive(Clone, Debug)]
pub struct Ledger {
    length: u64,
    buffer: u64,
    /// "free handles as a stack", the top last
    stack: Vec<u32>,
    clock: u8,
    bays: Vec<Bay>,
    fixed: Vec<Fixed>,
}

fn up4(k: u64) -> u64 {
    k.div_ceil(4) * 4
}

impl Ledger {
    /// "Initialization leaves handles 16, 20 and so on from the top of the
    /// stack, one bay of capacity L − 16 − 4m, and no fixed block."
    pub fn new(buffer: usize, length: u32, m: u32) -> Ledger {
        let capacity = u64::from(length) - 16 - 4 * u64::from(m);
        Ledger {
            length: length.into(),
            buffer: buffer as u64,
            stack: (0..m).rev().map(|i| 16 + 4 * i).collect(),
            clock: 0,
            bays: vec![Bay { capacity, ..Bay::default() }],
            fixed: Vec::new(),
        }
    }

    /// "A handle in a bay is live": its bay and its entry there.
    fn find_handle(&self, wanted: u32) -> Result<(usize, usize), u32> {
        for (bay, one) in self.bays.iter().enumerate() {
            if let Some(entry) = one.live.iter().position(|(handle, _)| *handle == wanted) {
                return Ok((bay, entry));
            }
        }
        Err(6)
    }

    /// "A pointer is a fixed block's place plus 2", which is 4 now: "data start at
    /// byte 4" (document 02, U6).
    fn find_pointer(&self, pointer: u32) -> Result<usize, u32> {
        self.fixed.iter().position(|fixed| fixed.place + 4 == u64::from(pointer)).ok_or(7)
    }

    fn data(&mut self, target: Target) -> Result<&mut Vec<u8>, u32> {
        match target {
            Target::Handle(handle) => {
                let (bay, entry) = self.find_handle(handle)?;
                Ok(&mut self.bays[bay].live[entry].1)
            }
            Target::Pointer(pointer) => {
                let which = self.find_pointer(pointer)?;
                Ok(&mut self.fixed[which].data)
            }
            Target::Name(name) => Ok(&mut self.page(name)?.data),
        }
    }

    fn part(&mut self, stretch: &Stretch) -> Result<&mut [u8], u32> {
        let data = self.data(stretch.block)?;
        let end = u64::from(stretch.offset) + u64::from(stretch.count);
        if end > data.len() as u64 {
            return Err(8);
        }
        Ok(&mut data[stretch.offset as usize..end as usize])
    }

    fn resize(&mut self, handle: u32, c: u32) -> Result<(), u32> {
        let (own, entry) = self.find_handle(handle)?;
        if c > 32_760 {
            return Err(3);
        }
        let (a, b) = (up4(c.into()), self.bays[own].live[entry].1.len() as u64);
        // "Needed of a bay: [...] in a resize 4 + a, but of its own bay a − b,
        // or 0 for a ≤ b"
        let to = if self.bays[own].sum() >= a.saturating_sub(b) {
            own
        } else {
            self.bays.iter().position(|bay| bay.sum() >= 4 + a).ok_or(5u32)?
        };
        let (_, mut data) = self.bays[own].live.remove(entry);
        data.resize(a as usize, 0);
        self.bays[to].live.push((handle, data));
        Ok(())
    }

    fn allocate_fixed(&mut self, c: u32) -> Result<u32, u32> {
        if c > 32_760 {
            return Err(3);
        }
        let size = up4(4 + u64::from(c));
        let bay = self.bays.iter().rposition(|bay| bay.sum() >= size).ok_or(5u32)?;
        // "the bay's end less its size, with an empty bay after it, and the
        // bay's capacity falls by that size"
        let end = self.fixed.get(bay).map_or(self.length, |fixed| fixed.place);
        let place = end - size;
        self.bays[bay].capacity -= size;
        self.bays.insert(bay + 1, Bay::default());
        self.fixed.insert(bay, Fixed { place, size, data: vec![0; size as usize - 4] });
        Ok(place as u32 + 4)
    }

    fn allocate_relocatable(&mut self, c: u32) -> Result<u32, u32> {
        if c > 32_760 {
            return Err(3);
        }
        // "When a relocatable allocation finds the chain empty": then m is the
        // number of live handles (document 02, U3)
        let m = self.bays.iter().map(|bay| bay.live.len() as u32).sum::<u32>();
        let grows = self.stack.is_empty();
        if grows && (m + 8 > 8_188 || self.bays[0].sum() < 32) {
            return Err(4);
        }
        let need = up4(4 + u64::from(c));
        // "tested against the sums after those 32 bytes are taken"
        let given_up = |bay: usize| if grows && bay == 0 { 32 } else { 0 };
        let sums = self.bays.iter().map(Bay::sum).enumerate();
        let reaching = sums.map(|(bay, sum)| sum - given_up(bay)).position(|sum| sum >= need);
        let bay = reaching.ok_or(5u32)?;
        // "The ledger's first capacity falls by 32 and its stack gains eight"
        if grows {
            self.bays[0].capacity -= 32;
            self.stack = (m..m + 8).rev().map(|i| 16 + 4 * i).collect();
        }
        let handle = self.stack.pop().expect("there is a free handle now");
        self.bays[bay].live.push((handle, vec![0; need as usize - 4]));
        Ok(handle)
    }

    fn step(&mut self, call: &Call, second: &mut [u8]) -> Result<Vec<u32>, u32> {
        let values = match *call {
            Call::Relocatable(c) => vec![self.allocate_relocatable(c)?],
            Call::Fixed(c) => vec![self.allocate_fixed(c)?],
            Call::FreeHandle(handle) => {
                let (bay, entry) = self.find_handle(handle)?;
                self.bays[bay].live.remove(entry);
                self.stack.push(handle);
                vec![]
            }
            Call::FreePointer(pointer) => {
                // "freeing it joins both bays and adds its size"
                let which = self.find_pointer(pointer)?;
                let size = self.fixed.remove(which).size;
                let after = self.bays.remove(which + 1);
                self.bays[which].capacity += size + after.capacity;
                self.bays[which].live.extend(after.live);
                self.bays[which].pages.extend(after.pages);
                vec![]
            }
            Call::Resize(handle, c) => self.resize(handle, c).map(|()| vec![])?,
            Call::Size(target) => vec![self.data(target)?.len() as u32],
            Call::Read(stretch) => {
                let part = self.part(&stretch)?;
                second.get_mut(..part.len()).ok_or(10u32)?.copy_from_slice(part);
                vec![]
            }
            Call::Write(stretch) => {
                let part = self.part(&stretch)?;
                part.copy_from_slice(second.get(..part.len()).ok_or(10u32)?);
                vec![]
            }
            Call::Compact => vec![self.sums().1],
            Call::Sum => vec![self.sums().0, self.sums().1],
            Call::Check => vec![1, self.live().len() as u32],
            Call::Length => vec![self.length as u32],
            Call::Enlarge(k) => {
                let new = self.length + u64::from(k);
                if k % 4 != 0 || new > self.buffer || new > 1_048_576 {
                    return Err(9);
                }
                self.length = new;
                self.bays.last_mut().unwrap().capacity += u64::from(k);
                vec![]
            }
            Call::Shrink(k) => {
                let last = self.bays.last_mut().unwrap();
                let strip = (u64::from(k) / 4 * 4).min(last.sum());
                last.capacity -= strip;
                self.length -= strip;
                vec![strip as u32]
            }
            Call::Roster => {
                let live = self.live();
                let bytes: Vec<u8> = live
                    .iter()
                    .flat_map(|(handle, data)| [*handle, data.len() as u32])
                    .flat_map(u32::to_be_bytes)
                    .collect();
                second.get_mut(..bytes.len()).ok_or(10u32)?.copy_from_slice(&bytes);
                vec![live.len() as u32]
            }
            Call::UsePage(name) => self.use_page(name).map(|()| vec![])?,
            Call::SetDirty(name) => self.flag(name, |page| page.dirty = true)?,
            Call::ClearDirty(name) => self.flag(name, |page| page.dirty = false)?,
            Call::SetLock(name) => self.flag(name, |page| page.lock = true)?,
            Call::ClearLock(name) => self.flag(name, |page| page.lock = false)?,
            Call::DropPage(name) => self.drop_page(name)?,
            Call::Initialize(..) | Call::View(_) => unreachable!("answered before"),
            Call::CreatePage(..) => unreachable!("answered before"),
            Call::Census | Call::WalkerStart | Call::WalkerStep(_) => {
                unreachable!("not the ledger's calls")
            }
        };
        Ok(values)
    }

    /// Total and largest sum.
    fn sums(&self) -> (u32, u32) {
        let sums = || self.bays.iter().map(Bay::sum);
        (sums().sum::<u64>() as u32, sums().max().unwrap_or(0) as u32)
    }

    /// The live handles with their bytes by rising handle, which is a roster's
    /// order; the bays have them as calls left them.
    fn live(&self) -> Vec<&(u32, Vec<u8>)> {
        let mut live: Vec<_> = self.bays.iter().flat_map(|bay| &bay.live).collect();
        live.sort_by_key(|(handle, _)| *handle);
        live
    }

    /// Whether document 01 names the call among the ledger's.
    pub fn knows(call: &Call) -> bool {
        !matches!(
            call,
            Call::Initialize(..) | Call::Census | Call::WalkerStart | Call::WalkerStep(_)
        )
    }

    /// Its answer. The data offset of a page that was created or used "isn't
    /// compared" (document 02, U5): an accepted one has no value here.
    pub fn ask(&mut self, call: &Call, second: &mut [u8]) -> Reply {
        if let Call::View(stretch) = call {
            return match self.part(stretch) {
                Ok(part) => Reply::of_view(part),
                Err(_) => Reply::of_view(&[]),
            };
        }
        if let Call::CreatePage(name, c) = *call {
            return match self.create_page(name, c) {
                Ok(()) => Reply::new(0, &[]),
                Err((refusal, value)) => Reply::new(refusal, &[value]),
            };
        }
        match self.step(call, second) {
            Ok(values) => Reply::new(0, &values),
            Err(refusal) => Reply::refused(refusal, call),
        }
    }

    /// "After the list the ledger's bytes stand in the zone: each live
    /// handle's from the offset in its master, each fixed block's from its
    /// pointer." And "each named block's [...] from byte 8 of the block with its
    /// name" (document 02, U5).
    pub fn stands_in(&self, zone: &[u8]) -> bool {
        let handles = self.live().into_iter().all(|(handle, data)| {
            let master = *handle as usize;
            let from = zone[master..master + 4].iter().fold(0, |at, &byte| at << 8 | byte as usize);
            zone[from..].starts_with(data)
        });
        let mut fixed = self.fixed.iter();
        handles
            && fixed.all(|fixed| zone[fixed.place as usize + 4..].starts_with(&fixed.data))
            && self.pages_stand_in(zone)
    }
}
