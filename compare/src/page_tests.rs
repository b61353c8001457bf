//! Tests of pages (document 02, U5): bytes written out, the order of dropping and
//! of refusals, slides, lists beside the ledger, zones at random, damaged ones,
//! and every state of small zones.

use crate::arguments::{a_call, every_call, CREATING, WITH_PAGES};
use crate::calls::{ask_zone, Call, Reply};
use crate::ledger::Ledger;
use crate::model::{Item, Page, Picture};
use crate::page_ways;
use crate::page_zones::{a_zone_of_many_pages, a_zone_of_pages, break_a_page};
use crate::random::Random;
use crate::rules;
use crate::zone::{self, Stretch, Target};
use crate::{block, bytes, compare, master, paint, refusal, wall, NUMBERS};
use std::collections::{BTreeMap, HashSet};

// ------------------------------------------------------------------- bytes

fn done(value: u32) -> Reply {
    Reply::new(0, &[value])
}

/// Calls from a fresh zone of 64 bytes without masters, each with its answer and
/// the zone's bytes from header byte 12 on.
const STEPS: [(Call, &[u32], &str); 11] = [
    (
        Call::CreatePage(0x0102_0304, 5),
        &[24],
        "00000100 C0080102 03040001 00000000 00000000 00000010",
    ),
    (
        Call::CreatePage(0, 0),
        &[40],
        "00000200 C0080102 03040001 00000000 00000000 C0040000 00000002 0000000C",
    ),
    (
        Call::UsePage(0x0102_0304),
        &[24],
        "00000300 C0080102 03040003 00000000 00000000 C0040000 00000002 0000000C",
    ),
    (
        Call::SetDirty(0),
        &[],
        "00000300 C0080102 03040003 00000000 00000000 C0040000 00008002 0000000C",
    ),
    (
        Call::SetLock(0),
        &[],
        "00000300 C0080102 03040003 00000000 00000000 C0040000 0000C002 0000000C",
    ),
    (
        Call::SetLock(0),
        &[],
        "00000300 C0080102 03040003 00000000 00000000 C0040000 0000C002 0000000C",
    ),
    (
        Call::UsePage(0),
        &[40],
        "00000400 C0080102 03040003 00000000 00000000 C0040000 0000C004 0000000C",
    ),
    (
        Call::ClearDirty(0),
        &[],
        "00000400 C0080102 03040003 00000000 00000000 C0040000 00004004 0000000C",
    ),
    (
        Call::DropPage(0x0102_0304),
        &[],
        "00000400 00000008 00000000 00000000 00000000 C0040000 00004004 0000000C",
    ),
    (Call::Compact, &[40], "00000400 C0040000 00004004 00000014"),
    // it heeds neither flag
    (Call::DropPage(0), &[], "00000400 00000018"),
];

#[test]
fn bytes_written_out() {
    let mut zone = vec![0xEE; 64];
    assert_eq!(zone::initialize(&mut zone, 64, 0), Ok(()));
    let mut ledger = Ledger::new(64, 64, 0);
    for (call, values, after) in STEPS {
        let reply = compare(&mut zone, &call, &[], Some(&mut ledger));
        assert_eq!(reply, Reply::new(0, values), "{call:?}");
        assert_eq!(zone[12..], bytes(after, 52), "{call:?}");
    }
}

/// A stretch by name; it neither stamps nor sets dirty.
#[test]
fn a_stretch_by_name() {
    let mut zone = vec![0; 64];
    assert_eq!(zone::initialize(&mut zone, 64, 1), Ok(()));
    assert_eq!(zone::create_page(&mut zone, 16, 6), Ok(28));
    assert_eq!(zone::allocate_relocatable(&mut zone, 8), Ok(16));
    let header = zone[14..28].to_vec();
    let stretch = Stretch { block: Target::Name(16), offset: 1, count: 4 };
    compare(&mut zone, &Call::Write(stretch), b"page", None);
    assert_eq!(zone[28..36], *b"\0page\0\0\0");
    let mut second = [7; 5];
    assert_eq!(zone::read(&zone, stretch, &mut second), Ok(()));
    assert_eq!(&second, b"page\x07");
    assert_eq!(zone::view(&zone, stretch), b"page");
    assert_eq!(zone::size(&zone, Target::Name(16)), Ok(8));
    assert_eq!(zone[14..20], header[..6], "the clock, and a master");
    assert_eq!(zone[20..28], header[6..], "the page's header");
    // the data sizes of page and handle 16 are their own
    assert_eq!(zone::size(&zone, Target::Handle(16)), Ok(8));
    for (call, number) in [
        (Call::Size(Target::Name(17)), 13),
        (Call::Read(Stretch { offset: 9, count: 0, ..stretch }), 8),
        (Call::Read(Stretch { offset: 0xFFFF_FFFF, count: 1, ..stretch }), 8),
        (Call::Read(stretch), 10),
        (Call::Write(Stretch { block: Target::Name(0), ..stretch }), 13),
        (Call::Resize(28, 4), 6),
        (Call::FreePointer(28), 7),
        (Call::FreePointer(22), 7),
    ] {
        assert_eq!(compare(&mut zone, &call, &[], None).refusal, Some(number), "{call:?}");
    }
}

/// Pages are not in the roster nor in check's number; the walker tells type 3.
#[test]
fn pages_have_no_master() {
    let mut zone = vec![0; 64];
    assert_eq!(zone::initialize(&mut zone, 64, 1), Ok(()));
    assert_eq!(zone::create_page(&mut zone, 1, 0), Ok(28));
    assert_eq!(zone::check(&zone), (true, 0));
    assert_eq!(zone::roster(&zone, &mut []), Ok(0));
    assert_eq!(zone::sum(&zone), Ok((36, 36)));
    let step = zone::Walker { offset: 20 }.step(&zone);
    let page = zone::Step { kind: 3, offset: 20, size: 8 };
    assert_eq!(step, (zone::Walker { offset: 28 }, Ok(page)));
}

#[test]
fn the_largest_page() {
    let mut zone = vec![0xEE; 32_780];
    assert_eq!(zone::initialize(&mut zone, 32_780, 0), Ok(()));
    let reply = compare(&mut zone, &Call::CreatePage(9, 32_757), &[], None);
    assert_eq!(reply, Reply::new(3, &[0]));
    let reply = compare(&mut zone, &Call::CreatePage(9, 32_756), &[], None);
    assert_eq!(reply, done(24));
    assert_eq!(zone[16..18], [0xFF, 0xFE]);
    assert_eq!(zone::size(&zone, Target::Name(9)), Ok(32_756));
    // the next one has its place
    let reply = compare(&mut zone, &Call::CreatePage(8, 32_753), &[], None);
    assert_eq!(
        (reply, zone::size(&zone, Target::Name(9))),
        (done(24), Err(zone::Refusal::NameAbsent))
    );
}

// --------------------------------------------------------------- dropping

/// The clock of the zones below: ages above 3 go round.
const CLOCK: u8 = 3;

fn page(name: u32, age: u8, flags: &str, data: usize) -> Item {
    Item::Page(Page {
        name,
        dirty: flags.contains('d'),
        lock: flags.contains('l'),
        stamp: CLOCK.wrapping_sub(age),
        data: vec![name as u8 | 1; data],
    })
}


fn zone_of(items: Vec<Item>) -> Vec<u8> {
    let length = 16 + items.iter().map(Item::size).sum::<usize>();
    Picture { length, m: 0, chain: vec![], clock: CLOCK, items }.encode()
}

fn names(zone: &[u8]) -> Vec<u32> {
    Picture::decode(zone).pages().map(|page| page.name).collect()
}

/// What a create of page 99 leaves: its data offset, and the pages then by address.
fn assert_created(items: Vec<Item>, c: u32, place: u32, left: &[u32]) {
    let mut zone = zone_of(items);
    let reply = compare(&mut zone, &Call::CreatePage(99, c), &[], None);
    assert_eq!((reply, &names(&zone)[..]), (done(place), left));
    assert_eq!(zone[14], CLOCK + 1);
    assert_eq!(zone[place as usize - 2..place as usize], [0, CLOCK + 1]);
}

fn assert_refused(items: Vec<Item>, name: u32, c: u32, number: u32, value: u32) {
    let mut zone = zone_of(items);
    let reply = compare(&mut zone, &Call::CreatePage(name, c), &[], None);
    assert_eq!(reply, Reply::new(number, &[value]));
}

#[test]
fn greatest_age_first() {
    // the middle one is the oldest; its stamp is the largest number
    let pages = || vec![page(1, 2, "", 8), page(2, 250, "", 8), page(3, 7, "", 8)];
    assert_created(pages(), 8, 40, &[1, 99, 3]);
    // two: the oldest, then 3; their places lie side by side
    assert_created(pages(), 24, 40, &[1, 99]);
    assert_created(pages(), 9, 40, &[1, 99]);
    // all, and the bay is one hole
    assert_created(pages(), 40, 24, &[99]);
    assert_refused(pages(), 99, 41, 5, 0);
    // two that lie apart: what is between slides
    let pages = || vec![page(1, 9, "", 8), page(2, 1, "", 4), page(3, 7, "", 8)];
    assert_created(pages(), 24, 36, &[2, 99]);
    // age 0 is the youngest, and goes last
    assert_created(vec![page(1, 0, "", 8), page(2, 1, "", 8)], 8, 40, &[1, 99]);
    // free bytes beside a page count
    assert_created(vec![Item::Free(4), page(2, 5, "", 0), Item::Free(12), wall()], 16, 24, &[99]);
}

#[test]
fn smaller_name_among_equals() {
    let pages = |ages: [u8; 3]| {
        vec![page(7, ages[0], "", 8), page(3, ages[1], "", 8), page(0x8000_0000, ages[2], "", 8)]
    };
    assert_created(pages([5, 5, 5]), 8, 40, &[7, 99, 0x8000_0000]);
    assert_created(pages([5, 4, 5]), 8, 24, &[99, 3, 0x8000_0000]);
    assert_created(pages([5, 4, 6]), 8, 56, &[7, 3, 99]);
    assert_created(pages([5, 5, 5]), 24, 24, &[99, 0x8000_0000]);
    // name 0 is a name like any other
    let pages = || vec![page(0xFFFF_FFFF, 1, "", 8), page(0, 1, "", 8)];
    assert_created(pages(), 8, 40, &[0xFFFF_FFFF, 99]);
}

#[test]
fn locked_pages_are_passed_over() {
    let pages = || vec![page(1, 9, "l", 8), page(2, 8, "", 8), page(3, 7, "dl", 8)];
    assert_created(pages(), 8, 40, &[1, 99, 3]);
    // dropping all unlocked ones would not do, though with the locked ones it would
    assert_refused(pages(), 99, 9, 5, 0);
}

/// "5 if dropping all unlocked blocks wouldn't do", dirty ones too; 12 after it.
#[test]
fn a_dirty_page_stops_the_dropping() {
    let pages = || vec![page(1, 7, "", 8), page(2, 8, "d", 8), page(3, 9, "", 8)];
    // 3 alone is enough
    assert_created(pages(), 8, 56, &[1, 2, 99]);
    // 2 would be reached, though 1 and 3 are clean; nothing is dropped
    assert_refused(pages(), 99, 9, 12, 2);
    assert_refused(pages(), 99, 40, 12, 2);
    assert_refused(pages(), 99, 41, 5, 0);
    // the first dirty one is named, not the oldest page
    let pages = || vec![page(1, 6, "d", 8), page(0, 6, "d", 8), page(5, 9, "", 8)];
    assert_refused(pages(), 99, 40, 12, 0);
    assert_refused(vec![page(1, 6, "d", 8), page(0, 5, "d", 8)], 99, 8, 12, 1);
    // a locked dirty page is not reached
    assert_created(vec![page(1, 9, "dl", 8), page(2, 1, "", 8)], 8, 40, &[1, 99]);
}

/// The order goes by age and name alone, whatever the bay.
#[test]
fn a_page_of_a_bay_that_does_not_help() {
    let bays = || vec![page(1, 9, "", 0), wall(), page(2, 8, "", 24), wall(), page(3, 7, "", 0)];
    assert_created(bays(), 24, 40, &[99, 3]);
    // it is dropped, and the bay below has a free block in its place
    let mut zone = zone_of(bays());
    assert_eq!(zone::create_page(&mut zone, 99, 24), Ok(40));
    assert_eq!(zone[16..24], [0, 0, 0, 4, 0, 0, 0, 0]);
    // dirty there, it stops the dropping all the same
    let bays = vec![page(1, 9, "d", 0), wall(), page(2, 8, "", 24)];
    assert_refused(bays, 99, 24, 12, 1);
    // the sums of two bays are not added
    let bays = vec![page(1, 9, "", 8), wall(), page(2, 8, "", 8)];
    assert_refused(bays, 99, 9, 5, 0);
}

/// 11, 3, 5, 12, in this order.
#[test]
fn order_of_refusals() {
    let pages = || vec![page(1, 9, "d", 8)];
    assert_refused(pages(), 1, 32_757, 11, 0);
    assert_refused(pages(), 1, 0, 11, 0);
    assert_refused(pages(), 2, 32_757, 3, 0);
    assert_refused(pages(), 2, 0xFFFF_FFFF, 3, 0);
    assert_refused(pages(), 2, 32_756, 5, 0);
    assert_refused(pages(), 2, 8, 12, 1);
    for call in [
        Call::UsePage(2),
        Call::SetDirty(2),
        Call::ClearDirty(2),
        Call::SetLock(2),
        Call::ClearLock(2),
        Call::DropPage(2),
    ] {
        let number = compare(&mut zone_of(pages()), &call, &[], None).refusal;
        assert_eq!(number, Some(13), "{call:?}");
        assert_eq!(compare(&mut vec![0; 40], &call, &[], None).refusal, Some(1), "{call:?}");
    }
}

/// Only create drops.
#[test]
fn other_calls_drop_nothing() {
    let pages = || vec![page(1, 9, "", 40), Item::Free(8)];
    for call in [Call::Relocatable(0), Call::Fixed(5), Call::Enlarge(4)] {
        let mut zone = zone_of(pages());
        assert_ne!(compare(&mut zone, &call, &[], None).refusal, Some(0), "{call:?}");
    }
    assert_eq!(refusal(zone::allocate_fixed(&mut zone_of(pages()), 4)), 0);
}

/// The page is placed as a relocatable block is: tightest hole, lowest of equals.
#[test]
fn the_tightest_hole() {
    let holes = |sizes: [usize; 3]| {
        let keepers = [page(1, 1, "l", 0), page(2, 1, "l", 0), page(3, 1, "l", 0)];
        sizes
            .into_iter()
            .map(Item::Free)
            .zip(keepers)
            .flat_map(|(hole, page)| [hole, page])
            .collect()
    };
    assert_created(holes([24, 16, 20]), 8, 16 + 24 + 8 + 8, &[1, 99, 2, 3]);
    assert_created(holes([20, 16, 16]), 8, 16 + 20 + 8 + 8, &[1, 99, 2, 3]);
    assert_created(holes([12, 12, 16]), 12, 16 + 24 + 8, &[1, 2, 3, 99]);
    assert_created(holes([8, 16, 8]), 0, 24, &[99, 1, 2, 3]);
}

// ------------------------------------------------------------------ slides

/// Eight masters more: the first page goes up, the second down.
#[test]
fn pages_slide_where_masters_are_added() {
    let items = vec![page(1, 0, "", 8), Item::Free(40), page(2, 0, "d", 4), Item::Free(8)];
    let mut zone = zone_of(items);
    let reply = compare(&mut zone, &Call::Relocatable(4), &[], None);
    assert_eq!(reply, done(16));
    let found = Picture::decode(&zone);
    assert_eq!((found.place_of(1), found.place_of(2)), (Some(56), Some(72)));
    assert_eq!(master(&zone, 16), 80);
    assert_eq!(zone[56..64], [1; 8]);
    assert_eq!(zone[70..76], [0x80, CLOCK, 3, 3, 3, 3]);
}

/// A block grows in its bay: the page before it goes down, the one behind it up.
#[test]
fn pages_slide_where_a_block_grows() {
    let items = vec![
        Item::Free(4),
        page(1, 0, "", 4),
        block(16, b"grow"),
        page(2, 0, "", 4),
        Item::Free(16),
        wall(),
    ];
    let length = 20 + items.iter().map(Item::size).sum::<usize>();
    let picture = Picture { length, m: 1, chain: vec![], clock: CLOCK, items };
    let mut zone = picture.encode();
    assert_eq!((picture.place_of(1), picture.place_of(2)), (Some(32), Some(52)));
    compare(&mut zone, &Call::Resize(16, 20), &[], None);
    let found = Picture::decode(&zone);
    assert_eq!((found.place_of(1), found.place_of(2)), (Some(28), Some(64)));
    assert_eq!(zone[master(&zone, 16) as usize..][..8], *b"grow\0\0\0\0");
}

// ------------------------------------------------- lists beside the ledger

/// Counts of accepted calls (0) and of each refusal, and of what calls show.
#[derive(Default)]
struct Tally {
    answers: [u64; NUMBERS],
    ways: page_ways::Counts,
}

impl Tally {
    fn count(&mut self, before: &[u8], call: &Call, reply: &Reply, after: &[u8]) {
        let refusal = reply.refusal.unwrap_or(0);
        self.answers[refusal as usize] += 1;
        self.ways.add(&page_ways::of_call(before, call, refusal, after));
    }

    fn tell(&self, name: &str) {
        let ways: Vec<u64> = self.ways.told().map(|(_, count)| count).collect();
        println!("{name}; done and refused 1 to 14: {:?}; ways of pages: {ways:?}", self.answers);
    }
}

/// Zone and ledger, each of them asked every call.
struct Run<'a> {
    random: &'a mut Random,
    zone: Vec<u8>,
    ledger: Ledger,
    tally: &'a mut Tally,
}

impl Run<'_> {
    fn call(&mut self, call: &Call, second: &[u8]) -> Reply {
        let before = self.zone.clone();
        let beside = Ledger::knows(call).then_some(&mut self.ledger);
        let reply = compare(&mut self.zone, call, second, beside);
        self.tally.count(&before, call, &reply, &self.zone);
        reply
    }

    /// Walls, so that there are so many bays and bytes in each.
    fn bays(&mut self, count: u32) {
        for _ in 1..count {
            let (_, room) = zone::numbers(zone::sum(&self.zone)).1;
            let part = self.random.below(room / 2 + 1);
            let pointer = self.call(&Call::Fixed(part), &[]).values[0];
            self.call(&Call::Fixed(0), &[]);
            self.call(&Call::FreePointer(pointer), &[]);
        }
    }

    /// As many uses of a page, neither compared byte by byte nor counted.
    fn uses(&mut self, name: u32, many: u32) {
        for _ in 0..many {
            assert_eq!(ask_zone(&mut self.zone, &Call::UsePage(name), &mut []).refusal, Some(0));
            assert_eq!(self.ledger.ask(&Call::UsePage(name), &mut []), Reply::new(0, &[]));
        }
    }

    /// Pages whose stamps are alike, for the clock goes round between them; or a
    /// clock that goes round with the next step.
    fn round(&mut self) {
        let present = names(&self.zone);
        let Some(&name) = present.first() else { return };
        if self.random.once_in(3) {
            return self.uses(name, u32::from(u8::MAX - self.zone[14]));
        }
        let other = self.random.pick(&present);
        self.uses(other, 1);
        let many = self.random.pick(&[255, 255, 255, 254, 256]);
        self.uses(name, many - 1);
        self.call(&Call::UsePage(name), &[]);
        let again = self.random.pick(&present);
        self.call(&Call::UsePage(again), &[]);
    }
}

/// One list from an accepted initialize, in one to three bays.
fn one_list(random: &mut Random, words: u32, steps: u32, tally: &mut Tally) {
    let room = words - 4;
    let m = random.pick(&[0, 0, 1, 3, 6]).min(room);
    let beyond = 4 * random.below(2) * random.below(30);
    let mut zone: Vec<u8> = (0..4 * words + beyond).map(|_| random.any() as u8).collect();
    assert_eq!(zone::initialize(&mut zone, 4 * words, m), Ok(()));
    let ledger = Ledger::new(zone.len(), 4 * words, m);
    let weights = random.pick(&WITH_PAGES);
    let mut run = Run { random, zone, ledger, tally };
    let bays = run.random.between(1, 3);
    run.bays(bays);
    for _ in 0..steps {
        if run.random.once_in(60) {
            run.round();
        }
        let (call, second) = a_call(run.random, &run.zone, &weights);
        run.call(&call, &second);
    }
}

fn many_lists(name: &str, seed: u64, lists: u32, steps: u32, least: u32, most: u32) -> Tally {
    let (mut random, mut tally) = (Random::new(seed), Tally::default());
    for _ in 0..lists {
        let words = random.between(least, most);
        one_list(&mut random, words, steps, &mut tally);
    }
    tally.tell(&format!("{name}: {lists} lists of {steps} calls"));
    tally
}

/// All but a page of 32,756 bytes, which takes a longer zone.
#[test]
fn lists_with_pages() {
    let mut tally = many_lists("small zones with pages", 21, 1_500, 150, 8, 60);
    let longer = many_lists("longer zones with pages", 22, 60, 150, 9_000, 18_000);
    tally.ways.add(&longer.ways);
    assert_eq!(tally.ways.never_met(), [""; 0], "never met");
    assert!(tally.answers[3..].iter().all(|&times| times > 0), "a refusal was never reached");
}

/// A page untouched for 256 steps is the youngest again.
#[test]
fn the_clock_goes_round() {
    let (mut random, mut tally) = (Random::new(1), Tally::default());
    let mut zone = vec![0; 16 + 16 + 16 + 4];
    assert_eq!(zone::initialize(&mut zone, 52, 0), Ok(()));
    let ledger = Ledger::new(52, 52, 0);
    let mut run = Run { random: &mut random, zone, ledger, tally: &mut tally };
    run.call(&Call::CreatePage(1, 8), &[]);
    run.call(&Call::CreatePage(2, 8), &[]);
    // 254 steps: page 1 has age 255, page 2 age 0
    run.uses(2, 254);
    assert_eq!(run.zone[14], 0);
    let mut next = run.zone.clone();
    assert_eq!(zone::create_page(&mut next, 3, 8), Ok(24));
    assert_eq!(names(&next), [3, 2]);
    // one more, and both have age 0: the smaller name goes
    run.call(&Call::UsePage(2), &[]);
    let mut next = run.zone.clone();
    assert_eq!(zone::create_page(&mut next, 3, 8), Ok(24));
    // one more: page 1 has age 1 again
    run.call(&Call::UsePage(2), &[]);
    run.call(&Call::CreatePage(0, 8), &[]);
    assert_eq!(names(&run.zone), [0, 2]);
}

// ---------------------------------------------------------- zones at random

#[test]
fn one_call_on_zones_with_pages() {
    let (mut random, mut tally) = (Random::new(23), Tally::default());
    for round in 0..120_000u32 {
        let mut zone = a_zone_of_pages(&mut random);
        assert_eq!(rules::broken_rule(&zone), None);
        let any = random.pick(&WITH_PAGES);
        let weights = if round % 2 == 0 { CREATING } else { any };
        let (call, second) = a_call(&mut random, &zone, &weights);
        let before = zone.clone();
        let reply = compare(&mut zone, &call, &second, None);
        tally.count(&before, &call, &reply, &zone);
    }
    tally.tell("zones with pages at random");
    let mut never = tally.ways.never_met();
    never.retain(|&way| way != "creates of 32,756 bytes");
    assert_eq!(never, [""; 0], "never met");
}

/// Names that all want the first place of the table by which names are seen to be
/// distinct: so they are sorted. Those that are not distinct are found, too.
#[test]
fn names_against_the_table() {
    // what undoes the factor: each turn makes twice as many bits right
    let mut undo = zone::SCATTER;
    for _ in 0..5 {
        undo = undo.wrapping_mul(2u32.wrapping_sub(zone::SCATTER.wrapping_mul(undo)));
    }
    assert_eq!(undo.wrapping_mul(zone::SCATTER), 1);
    for count in [2, 100, 255, 256, 257, 700] {
        for twice in [None, Some(0), Some(count - 1)] {
            let numbers = (1..=count).chain(twice.map(|one| one + 1));
            let page = |number: u32| {
                let name = number.wrapping_mul(undo);
                Item::Page(Page { name, dirty: false, lock: false, stamp: 0, data: Vec::new() })
            };
            let items: Vec<Item> = numbers.map(page).collect();
            let length = 16 + items.iter().map(Item::size).sum::<usize>();
            let zone = Picture { length, m: 0, chain: Vec::new(), clock: 0, items }.encode();
            assert_eq!(zone::check(&zone), rules::check(&zone));
            assert_eq!(zone::check(&zone).0, twice.is_none());
        }
    }
}

/// So many pages that a create that drops sorts their names byte by byte.
#[test]
fn many_pages() {
    let mut random = Random::new(24);
    let (mut yes, mut no, mut dropped) = (0, 0, 0);
    for count in [255, 256, 257, 300, 700].repeat(8) {
        let mut zone = a_zone_of_many_pages(&mut random, count);
        let c = random.below(400);
        let pages = names(&zone).len();
        let reply = compare(&mut zone, &Call::CreatePage(77, c), &[], None);
        dropped += u64::from(reply.refusal == Some(0) && names(&zone).len() < pages);
        for _ in 0..10 {
            let mut broken = zone.clone();
            break_a_page(&mut random, &mut broken);
            assert_eq!(zone::check(&broken), rules::check(&broken));
            *if zone::check(&broken).0 { &mut yes } else { &mut no } += 1;
        }
    }
    println!("many pages: {dropped} creates that drop, {yes} zones well-formed and {no} not");
    assert!(dropped > 5 && yes > 50 && no > 50);
}

/// As many as a zone can have: 131,070. The last name is the first one's.
#[test]
fn the_most_pages() {
    let mut zone = a_zone_of_many_pages(&mut Random::new(3), 0);
    zone.resize(zone::LENGTH_LIMIT, 0);
    assert_eq!(zone::initialize(&mut zone, zone::LENGTH_LIMIT as u32, 0), Ok(()));
    for (i, page) in zone[16..].chunks_exact_mut(8).enumerate() {
        page.copy_from_slice(&[0xC0, 4, 0, (i >> 16) as u8, (i >> 8) as u8, i as u8, 0, 0]);
    }
    assert_eq!(zone::check(&zone), (true, 0));
    assert_eq!(zone::create_page(&mut zone.clone(), 0x0100_0000, 0), Ok(24));
    // in the place of 4,095 of them
    assert_eq!(zone::create_page(&mut zone.clone(), 0x0100_0000, 32_752), Ok(24));
    let last = zone::LENGTH_LIMIT - 8;
    zone.copy_within(16..24, last);
    assert_eq!(zone::check(&zone), (false, 0));
    assert_eq!(rules::broken_rule(&zone), Some(rules::NAMES));
}

// ------------------------------------------------------------------ damage

#[test]
fn damaged_zones_with_pages() {
    let mut random = Random::new(25);
    let mut told: BTreeMap<&str, u32> = BTreeMap::new();
    for _ in 0..60_000 {
        let mut zone = a_zone_of_pages(&mut random);
        break_a_page(&mut random, &mut zone);
        let broken = rules::broken_rule(&zone);
        *told.entry(broken.unwrap_or("none")).or_default() += 1;
        assert_eq!(zone::check(&zone), rules::check(&zone), "{zone:02X?}");
        for (call, second) in every_call(&mut random, &zone) {
            let reply = compare(&mut zone.clone(), &call, &second, None);
            let judged = !matches!(call, Call::Check | Call::Initialize(..));
            let refused = reply.refusal.is_none_or(|number| number == 1);
            assert!(broken.is_none() || !judged || refused, "{call:?} on {zone:02X?}");
        }
    }
    println!("damaged zones with pages, by broken rule: {told:?}");
    for rule in ["none", rules::BYTE_15, rules::PAGE_SIZE, rules::STATUS_BITS, rules::NAMES] {
        assert!(told.get(rule).is_some_and(|&count| count > 1_000), "{rule}");
    }
}

// --------------------------------------------- every state of small zones

/// Ages above this are taken for it, and the clock is 0 again, so that there are
/// few states; equal ages come of it, and ages that have gone round.
const OLDEST: u8 = 2;

fn renew(zone: &mut [u8]) {
    let mut picture = Picture::decode(zone);
    let clock = picture.clock;
    for item in &mut picture.items {
        if let Item::Page(page) = item {
            page.stamp = 0u8.wrapping_sub(clock.wrapping_sub(page.stamp).min(OLDEST));
        }
    }
    picture.clock = 0;
    let bytes = picture.encode();
    zone[..bytes.len()].copy_from_slice(&bytes);
}

/// Every state that calls with small numbers and these names reach.
fn every_state(length: u32, m: u32, names: &[u32]) -> (usize, u64) {
    let mut first = vec![0xEE; length as usize];
    assert_eq!(zone::initialize(&mut first, length, m), Ok(()));
    let mut calls = vec![Call::Compact, Call::Shrink(4), Call::Fixed(0)];
    for c in (0..length - 16 - 4 * m).step_by(4) {
        calls.push(Call::Relocatable(c));
        calls.extend((0..m).map(|i| Call::Resize(16 + 4 * i, c)));
        calls.extend(names.iter().map(|&name| Call::CreatePage(name, c)));
    }
    calls.extend((0..m).map(|i| Call::FreeHandle(16 + 4 * i)));
    calls.extend((16..length).step_by(4).map(|at| Call::FreePointer(at + 4)));
    for &name in names {
        calls.extend([Call::UsePage(name), Call::SetDirty(name), Call::ClearDirty(name)]);
        calls.extend([Call::SetLock(name), Call::ClearLock(name), Call::DropPage(name)]);
    }
    let mut known = HashSet::from([first.clone()]);
    let mut open = vec![first];
    let mut steps = 0;
    while let Some(state) = open.pop() {
        for call in &calls {
            let mut next = state.clone();
            compare(&mut next, call, &[], None);
            steps += 1;
            paint(&mut next);
            renew(&mut next);
            if next != state && known.insert(next.clone()) {
                open.push(next);
            }
        }
    }
    (known.len(), steps)
}

#[test]
fn every_state_of_small_zones_with_pages() {
    for (length, m, names) in
        [(40, 0, &[0, 1, 2][..]), (44, 0, &[0, 7]), (44, 1, &[5, 0xFFFF_FFFF])]
    {
        let (states, steps) = every_state(length, m, names);
        println!(
            "every state of L = {length}, m = {m}, pages {names:?}: {states} states, {steps} calls"
        );
    }
}
