//! The zones that are measured, and lists of calls on them.

use crate::calls::Call;
use crate::model::{Item, Picture};
use crate::random::Random;
use crate::zone::{self, Stretch, Target};
use std::borrow::Cow;

pub const KIBIBYTE: usize = 1_024;

/// What a zone is to hold.
#[derive(Clone, Copy)]
pub struct Plan {
    pub length: usize,
    pub masters: usize,
    pub relocatable: usize,
    pub fixed: usize,
    /// data bytes of a relocatable block, at most
    pub most_data: u32,
    /// one hole after every so many blocks
    pub hole_every: usize,
}

/// A zone with its blocks evenly mixed, and the rest free at its end.
pub fn zone_of(plan: &Plan, random: &mut Random) -> Vec<u8> {
    let blocks = plan.relocatable + plan.fixed;
    let mut handles = (0..plan.masters).map(|i| 16 + 4 * i as u32);
    let mut items = Vec::new();
    let mut fixed = 0;
    for i in 0..blocks {
        // fixed blocks stand at equal distances
        if (i + 1) * plan.fixed / blocks > fixed {
            fixed += 1;
            items.push(Item::Fixed(vec![0xF1; 12]));
        } else {
            let words = random.below(plan.most_data / 4) as usize + 1;
            let data = (0..4 * words).map(|_| random.any() as u8).collect();
            items.push(Item::Relocatable(handles.next().expect("enough masters"), data));
        }
        if i % plan.hole_every == plan.hole_every - 1 {
            items.push(Item::Free(4 * random.below(plan.most_data / 4) as usize + 4));
        }
    }
    let used: usize = items.iter().map(Item::size).sum();
    let rest = plan.length.checked_sub(16 + 4 * plan.masters + used).expect("the blocks fit");
    match items.last_mut() {
        Some(Item::Free(size)) => *size += rest,
        _ if rest > 0 => items.push(Item::Free(rest)),
        _ => {}
    }
    let picture = Picture { length: plan.length, m: plan.masters, chain: handles.collect(), clock: 0, items };
    let zone = picture.encode();
    assert_eq!(zone::check(&zone), (true, plan.relocatable as u32));
    zone
}

/// A zone by the plan, but with no free master and 32 bytes more in the first
/// bay: an allocation of a relocatable block adds masters (document 02, U3), for
/// which blocks go up before the first holes and may go down behind them.
fn zone_without_free_master(plan: &Plan, random: &mut Random) -> Vec<u8> {
    let full = Plan { masters: plan.relocatable, ..*plan };
    let mut picture = Picture::decode(&zone_of(&full, random));
    match picture.items.last_mut() {
        Some(Item::Free(rest)) if *rest > 32 => *rest -= 32,
        _ => panic!("32 bytes are free at the end"),
    }
    let end = picture.items.iter().position(|item| matches!(item, Item::Fixed(_)));
    let end = end.unwrap_or(picture.items.len());
    match picture.items[..end].last_mut() {
        Some(Item::Free(size)) => *size += 32,
        _ => picture.items.insert(end, Item::Free(32)),
    }
    let zone = picture.encode();
    assert_eq!(zone::check(&zone), (true, plan.relocatable as u32));
    zone
}

/// Live handles with their data sizes, pointers, starts of blocks.
pub struct Known {
    pub handles: Vec<(u32, u32)>,
    pub pointers: Vec<u32>,
    pub starts: Vec<u32>,
}

pub fn known(zone: &[u8]) -> Known {
    let picture = Picture::decode(zone);
    let mut known = Known { handles: Vec::new(), pointers: Vec::new(), starts: Vec::new() };
    let mut at = 16 + 4 * picture.m;
    for item in &picture.items {
        known.starts.push(at as u32);
        match item {
            Item::Free(_) | Item::Page(_) => {}
            Item::Fixed(_) => known.pointers.push(at as u32 + 4),
            Item::Relocatable(handle, data) => known.handles.push((*handle, data.len() as u32)),
        }
        at += item.size();
    }
    known
}

/// Live handles, each with the least data size that its own bay has no room
/// for, where another bay has.
fn movers(zone: &[u8]) -> Vec<(u32, u32)> {
    let items = Picture::decode(zone).items;
    let bays: Vec<&[Item]> = items.split(|item| matches!(item, Item::Fixed(_))).collect();
    let most = bays.iter().map(|bay| free_bytes(bay)).max().unwrap_or(0);
    let mut movers = Vec::new();
    for bay in bays {
        let more = free_bytes(bay) + 4;
        for item in bay {
            if let Item::Relocatable(handle, data) = item {
                let size = data.len() + more;
                if 4 + size <= most && size <= 32_760 {
                    movers.push((*handle, size as u32));
                }
            }
        }
    }
    movers
}

fn free_bytes(bay: &[Item]) -> usize {
    bay.iter().filter(|item| matches!(item, Item::Free(_))).map(Item::size).sum()
}

/// A realistic list: mostly reads and writes, blocks come and go and change
/// their size, now and then the zone is compacted and looked over. The calls
/// go beside the list, so that it names live blocks.
pub fn mix(
    zone: &[u8],
    plan: &Plan,
    count: usize,
    compact_every: usize,
    random: &mut Random,
) -> Vec<Call> {
    let mut zone = zone.to_vec();
    let mut live: Vec<u32> = known(&zone).handles.iter().map(|one| one.0).collect();
    let mut calls = Vec::new();
    for i in 0..count {
        let call = if i % compact_every == compact_every - 1 {
            Call::Compact
        } else {
            a_call(&zone, &live, plan, random)
        };
        match (call, crate::sides::rust(&mut zone, &call, &mut [7; 64])) {
            (Call::Relocatable(_), handle) if handle >= 16 => live.push(handle),
            (Call::FreeHandle(handle), 0) => live.retain(|&one| one != handle),
            _ => {}
        }
        calls.push(call);
    }
    calls
}

fn a_call(zone: &[u8], live: &[u32], plan: &Plan, random: &mut Random) -> Call {
    let handle = random.pick_or(live, 16);
    let few = live.len() < plan.relocatable;
    match random.below(100) {
        0..=39 => Call::Read(a_stretch(zone, handle)),
        40..=64 => Call::Write(a_stretch(zone, handle)),
        65..=82 if few => Call::Relocatable(random.below(plan.most_data)),
        65..=82 => Call::FreeHandle(handle),
        83..=93 => Call::Resize(handle, random.below(plan.most_data)),
        94..=97 => Call::Size(Target::Handle(handle)),
        _ => Call::Sum,
    }
}

/// The first bytes of a block, 64 at most.
fn a_stretch(zone: &[u8], handle: u32) -> Stretch {
    let size = zone::size(zone, Target::Handle(handle)).unwrap_or(0);
    Stretch { block: Target::Handle(handle), offset: 0, count: size.min(64) }
}

/// A call alone, some times, each on a copy of the zone.
pub struct Row<'z> {
    pub name: &'static str,
    pub calls: Vec<Call>,
    pub zone: Cow<'z, [u8]>,
    /// what the calls are lent beside it
    pub second: Vec<u8>,
}

/// A second buffer that is long enough for every read, write and roster.
pub fn any_second() -> Vec<u8> {
    vec![7; 8 * 8_188]
}

/// A mill's limits of strata (document 02, U7): each the sum of the two before it,
/// so that they are close together where blocks are small and far apart else.
fn mills_limits() -> Vec<u8> {
    let mut limits = vec![1u32, 2];
    while limits.len() < zone::STRATA {
        limits.push(limits.iter().rev().take(2).sum());
    }
    limits.iter().flat_map(|limit| limit.to_be_bytes()).collect()
}

/// The rows of a table: a call alone, `count` times, on blocks picked at random.
pub fn alone<'z>(zone: &'z [u8], plan: &Plan, count: usize, random: &mut Random) -> Vec<Row<'z>> {
    let known = known(zone);
    let room = (zone.len() - plan.length) as u32 / 4 * 4;
    let mut rows = Vec::new();
    let mut add = |name, call: &mut dyn FnMut(&mut Random) -> Call| {
        let calls = (0..count).map(|_| call(random)).collect();
        rows.push(Row { name, calls, zone: Cow::Borrowed(zone), second: any_second() });
    };
    let handle = |random: &mut Random| random.pick(&known.handles);
    let stretch = |random: &mut Random| {
        let (handle, size) = handle(random);
        Stretch { block: Target::Handle(handle), offset: 0, count: size.min(64) }
    };
    add("check", &mut |_| Call::Check);
    add("initialize", &mut |_| Call::Initialize(plan.length as u32, plan.masters as u32));
    add("allocate relocatable", &mut |random| Call::Relocatable(random.below(plan.most_data)));
    add("allocate fixed", &mut |random| Call::Fixed(random.below(plan.most_data)));
    add("free by handle", &mut |random| Call::FreeHandle(handle(random).0));
    add("resize to less", &mut |random| {
        let (handle, size) = handle(random);
        Call::Resize(handle, size / 2)
    });
    add("resize to more", &mut |random| {
        let (handle, size) = handle(random);
        Call::Resize(handle, size + 8)
    });
    add("size", &mut |random| Call::Size(Target::Handle(handle(random).0)));
    add("read 64 bytes", &mut |random| Call::Read(stretch(random)));
    add("write 64 bytes", &mut |random| Call::Write(stretch(random)));
    add("view", &mut |random| Call::View(stretch(random)));
    add("compact", &mut |_| Call::Compact);
    add("sum", &mut |_| Call::Sum);
    add("length", &mut |_| Call::Length);
    add("shrink 64", &mut |_| Call::Shrink(64));
    add("roster", &mut |_| Call::Roster);
    add("walker start", &mut |_| Call::WalkerStart);
    add("walker step", &mut |random| Call::WalkerStep(random.pick(&known.starts)));
    if room > 0 {
        add("enlarge", &mut |_| Call::Enlarge(room));
    }
    let movers = movers(zone);
    if !movers.is_empty() {
        add("resize to another bay", &mut |random| {
            let (handle, size) = random.pick(&movers);
            Call::Resize(handle, size)
        });
    }
    if !known.pointers.is_empty() {
        let pointer = |random: &mut Random| random.pick(&known.pointers);
        add("free by pointer", &mut |random| Call::FreePointer(pointer(random)));
        add("read by pointer", &mut |random| {
            Call::Read(Stretch { block: Target::Pointer(pointer(random)), offset: 0, count: 12 })
        });
    }
    // right after the rosters: without limits, and by a mill's
    let place = rows.iter().take_while(|row| row.name != "walker start").count();
    for (name, second) in [("census by a mill's limits", mills_limits()), ("census", vec![])] {
        assert!(zone::census(zone, &second).is_ok(), "limits within the rules");
        let calls = vec![Call::Census; count];
        rows.insert(place, Row { name, calls, zone: Cow::Borrowed(zone), second });
    }
    let place = rows.iter().take_while(|row| row.name != "sum").count();
    if let Some(zone) = hole_before_the_most_free_bytes(zone) {
        let (name, calls) = ("compact, a hole before most free bytes", vec![Call::Compact; count]);
        rows.insert(place, Row { name, calls, zone: Cow::Owned(zone), second: any_second() });
    }
    // right after the allocations that find a free master
    let place = rows.iter().take_while(|row| row.name != "allocate fixed").count();
    rows.insert(place, growing(plan, count, zone.len(), random));
    rows
}

/// The zone with two blocks more in the bay that has most room, of which the lower one was freed: so
/// that bay has to be compacted. None where the blocks do not go there.
fn hole_before_the_most_free_bytes(zone: &[u8]) -> Option<Vec<u8>> {
    let mut zone = zone.to_vec();
    let c = (zone::sum(&zone).ok()?.1 / 3).min(32_760);
    let lower = zone::allocate_relocatable(&mut zone, c).ok()?;
    zone::allocate_relocatable(&mut zone, c).ok()?;
    zone::free_handle(&mut zone, lower).ok()?;
    let items = Picture::decode(&zone).items;
    let bays = items.split(|item| matches!(item, Item::Fixed(_)));
    let most = bays.max_by_key(|bay| free_bytes(bay))?;
    let holes = most.iter().filter(|item| matches!(item, Item::Free(_))).count();
    (holes > 1).then_some(zone)
}

/// Allocations each of which adds masters.
fn growing(plan: &Plan, count: usize, length: usize, random: &mut Random) -> Row<'static> {
    let mut zone = zone_without_free_master(plan, random);
    zone.resize(length, 0);
    let calls: Vec<Call> =
        (0..count).map(|_| Call::Relocatable(random.below(plan.most_data))).collect();
    for call in &calls {
        let mut copy = zone.clone();
        crate::sides::rust(&mut copy, call, &mut []);
        assert_ne!(copy[8..12], zone[8..12], "masters are added");
    }
    let name = "allocate relocatable, growing";
    Row { name, calls, zone: Cow::Owned(zone), second: any_second() }
}
