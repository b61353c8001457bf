//! Zones full of pages (document 02, U5), and rows of calls on them: by name,
//! creates that find room, creates that drop one page and many.

use crate::calls::Call;
use crate::model::{Item, Page, Picture};
use crate::random::Random;
use crate::workloads::{any_second, Row, KIBIBYTE};
use crate::zone::{self, Stretch, Target};
use std::borrow::Cow;

/// A name that no page of a zone here has.
const NEW_NAME: u32 = 0x8000_0000;

/// What a zone is to hold; `room` bytes and what is lost by rounding stay free, at its end.
#[derive(Clone, Copy)]
pub struct Pages {
    pub length: usize,
    pub count: usize,
    pub room: usize,
}

/// Pages in four bays of equal numbers, all of one size, clean and unlocked, with names and ages at random.
fn zone_of(pages: &Pages, random: &mut Random) -> Vec<u8> {
    const BAYS: usize = 4;
    const FIXED: usize = 16;
    let bytes = pages.length - 16 - pages.room - FIXED * (BAYS - 1);
    let size = bytes / pages.count / 4 * 4;
    let mut items = Vec::new();
    for i in 0..pages.count {
        // distinct names in no order: an odd factor turns no two numbers below 2^31 into one
        let name = (i as u32).wrapping_mul(0x9E37_79B1) & (NEW_NAME - 1);
        let data = vec![i as u8; size - 8];
        items.push(Item::Page(Page {
            name,
            dirty: false,
            lock: false,
            stamp: random.any() as u8,
            data,
        }));
        if (i + 1) % (pages.count / BAYS) == 0 && i + 1 < pages.count {
            items.push(Item::Fixed(vec![0xF1; FIXED - 4]));
        }
    }
    let used: usize = items.iter().map(Item::size).sum();
    items.push(Item::Free(pages.length - 16 - used));
    let zone = Picture { length: pages.length, m: 0, chain: Vec::new(), clock: 77, items }.encode();
    assert_eq!(zone::check(&zone), (true, 0));
    zone
}

fn names(zone: &[u8]) -> Vec<u32> {
    let name = |item: &Item| match item {
        Item::Page(page) => Some(page.name),
        _ => None,
    };
    Picture::decode(zone).items.iter().filter_map(name).collect()
}

/// How many pages a create drops.
fn dropped(zone: &[u8], call: &Call) -> usize {
    let mut copy = zone.to_vec();
    crate::sides::rust(&mut copy, call, &mut []);
    (names(zone).len() + 1).saturating_sub(names(&copy).len())
}

/// The rows: a call alone, `count` times, on pages picked at random.
pub fn rows(pages: &Pages, count: usize, random: &mut Random) -> Vec<Row<'static>> {
    let zone = zone_of(pages, random);
    let names = names(&zone);
    let size = (pages.length - pages.room) / pages.count;
    let free = zone::numbers(zone::sum(&zone)).1 .0;
    let mut rows = Vec::new();
    let mut add = |name, call: &mut dyn FnMut(&mut Random) -> Call| {
        let calls = (0..count).map(|_| call(random)).collect::<Vec<_>>();
        rows.push(Row { name, calls, zone: Cow::Owned(zone.clone()), second: any_second() });
    };
    let stretch = |random: &mut Random| Stretch {
        block: Target::Name(random.pick(&names)),
        offset: 0,
        count: (size as u32 - 16).min(64),
    };
    add("check", &mut |_| Call::Check);
    add("use page", &mut |random| Call::UsePage(random.pick(&names)));
    add("set dirty", &mut |random| Call::SetDirty(random.pick(&names)));
    add("drop page", &mut |random| Call::DropPage(random.pick(&names)));
    add("size by name", &mut |random| Call::Size(Target::Name(random.pick(&names))));
    add("read by name", &mut |random| Call::Read(stretch(random)));
    add("compact", &mut |_| Call::Compact);
    add("create page, name present", &mut |random| Call::CreatePage(random.pick(&names), 0));
    add("create page, there is room", &mut |random| {
        Call::CreatePage(NEW_NAME, random.below(free / 2))
    });
    add("create page, a few pages go", &mut |_| Call::CreatePage(NEW_NAME, free + 8));
    add("create page, many pages go", &mut |_| {
        Call::CreatePage(NEW_NAME, (pages.length as u32 / 16).min(32_756))
    });
    for row in &rows {
        for call in &row.calls {
            match row.name {
                "create page, there is room" => assert_eq!(dropped(&row.zone, call), 0),
                // those before it in age may stand in bays that do not help
                "create page, a few pages go" => assert!(dropped(&row.zone, call) > 0),
                "create page, many pages go" => {
                    assert!(dropped(&row.zone, call) > pages.count / 100)
                }
                _ => {}
            }
        }
    }
    rows
}

pub const ZONES: [(&str, Pages); 3] = [
    ("64 KiB with 100 pages", Pages { length: 64 * KIBIBYTE, count: 100, room: 400 }),
    ("256 KiB with 1,000 pages", Pages { length: 256 * KIBIBYTE, count: 1_000, room: 400 }),
    ("1 MiB with 8,000 pages", Pages { length: 1_024 * KIBIBYTE, count: 8_000, room: 400 }),
];
