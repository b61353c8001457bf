//! Tests of the zone: the rig sheet to the byte, zone-run's example, the choice
//! between holes, the pool of masters that grows, fixed blocks without data and
//! older ones, every state that small zones reach, long random lists, zones built
//! at random and broken buffers. Two models answer beside it: the structured one
//! (`model`) for every byte, and the ledger (`ledger`) for every answer of a list.
//! Pages have their tests in `page_tests`, the census in `census_tests`.

#![allow(dead_code)]

mod arguments;
mod calls;
mod census_tests;
mod fixed_ways;
mod holes;
mod ledger;
mod limit_ways;
mod limits;
mod lines;
mod model;
mod page_tests;
mod page_ways;
mod page_zones;
mod pool;
mod random;
mod records;
mod rules;
mod verdict;
#[allow(dead_code)]
mod ways;
mod zone;
mod zones;

use arguments::{a_call, every_call, ALLOCATING, CALLS_WITHOUT_PAGES, PLACING, WEIGHTS};
use calls::{ask_zone, Call, Reply};
use ledger::Ledger;
use model::{ask_model, Item, Picture};
use random::Random;
use std::collections::HashSet;
use verdict::{difference, Left};
use zone::{Stretch, Target};
use zones::{
    a_pitted_zone, a_zone, a_zone_of_all_masters, a_zone_without_free_master, break_a_rule, damage,
    noise,
};

// ---------------------------------------------------------------- rig sheet

fn fresh() -> Vec<u8> {
    let mut zone = vec![0xEE; 64];
    assert_eq!(zone::initialize(&mut zone, 64, 4), Ok(()));
    zone
}

/// Bytes from hexadecimal text, filled up with zeros.
fn bytes(text: &str, length: usize) -> Vec<u8> {
    let digits: Vec<u8> =
        text.chars().filter(|c| !c.is_whitespace()).map(|c| c.to_digit(16).unwrap() as u8).collect();
    let mut all: Vec<u8> = digits.chunks(2).map(|pair| pair[0] << 4 | pair[1]).collect();
    all.resize(length, 0);
    all
}

fn write_all(zone: &mut [u8], block: Target, data: &[u8]) {
    let stretch = Stretch { block, offset: 0, count: data.len() as u32 };
    assert_eq!(zone::write(zone, stretch, data), Ok(()));
}

fn master(zone: &[u8], handle: usize) -> u32 {
    u32::from_be_bytes(zone[handle..handle + 4].try_into().unwrap())
}

fn refusal<T: zone::Values>(answer: zone::Answer<T>) -> u32 {
    zone::numbers(answer).0
}

const R1: &str = "00000040 00000020 00000004 00100000 00000014 00000018 0000001C 00000000 00000010";

#[test]
fn r1_fresh() {
    assert_eq!(fresh(), bytes(R1, 64));
}

fn after_r2() -> Vec<u8> {
    let mut zone = fresh();
    assert_eq!(zone::allocate_relocatable(&mut zone, 6), Ok(16));
    zone
}

#[test]
fn r2_relocatable() {
    let zone = after_r2();
    assert_eq!(master(&zone, 16), 36);
    assert_eq!(zone::size(&zone, Target::Handle(16)), Ok(8));
    let expected = "00000040 00000020 00000004 00140000 00000024 00000018 0000001C 00000000
        80060010 00000000 00000000 0000000A";
    assert_eq!(zone, bytes(expected, 64));
}

/// Up to the third allocation of R3, with bytes in handle 20.
fn after_r3() -> Vec<u8> {
    let mut zone = after_r2();
    write_all(&mut zone, Target::Handle(16), b"shortone");
    assert_eq!(zone::allocate_relocatable(&mut zone, 8), Ok(20));
    assert_eq!(master(&zone, 20), 48);
    write_all(&mut zone, Target::Handle(20), b"basisrec");
    assert_eq!(zone::free_handle(&mut zone, 16), Ok(()));
    assert_eq!(zone::sum(&zone), Ok((20, 20)));
    let census = zone::census(&zone, &[]).unwrap();
    assert_eq!((census[2], census.iter().sum()), (2, 2u32), "pieces of 12 and 8 bytes");
    assert_eq!(zone::allocate_relocatable(&mut zone, 13), Ok(16));
    zone
}

#[test]
fn r3_slide() {
    let zone = after_r3();
    let expected = "00000040 00000020 00000004 00180000 00000030 00000024 0000001C 00000000
        80060014 62617369 73726563 800A0010";
    assert_eq!(zone, bytes(expected, 64));
    assert_eq!(zone::size(&zone, Target::Handle(16)), Ok(16));
}

#[test]
fn r4_no_space_then_resize() {
    let mut zone = after_r3();
    let before = zone.clone();
    assert_eq!(refusal(zone::allocate_relocatable(&mut zone, 0)), 5);
    assert_eq!(zone, before);
    assert_eq!(zone::resize(&mut zone, 20, 4), Ok(()));
    assert_eq!(zone::allocate_relocatable(&mut zone, 0), Ok(24));
    assert_eq!(zone::size(&zone, Target::Handle(24)), Ok(0));
    let expected = "00000040 00000020 00000004 001C0000 00000030 00000024 0000002C 00000000
        80040014 62617369 80020018 800A0010";
    assert_eq!(zone, bytes(expected, 64));
}

#[test]
fn r5_fixed() {
    let mut zone = fresh();
    assert_eq!(zone::allocate_fixed(&mut zone, 5), Ok(56));
    assert_eq!(zone::size(&zone, Target::Pointer(56)), Ok(8));
    let fixed = "40060000 00000000 00000000";
    assert_eq!(zone[52..], bytes(fixed, 12));
    let before = zone.clone();
    assert_eq!(refusal(zone::allocate_relocatable(&mut zone, 17)), 5);
    assert_eq!(zone, before);
    assert_eq!(zone::allocate_relocatable(&mut zone, 16), Ok(16));
    let mut expected = bytes(
        "00000040 00000020 00000004 00140000 00000024 00000018 0000001C 00000000 800A0010",
        52,
    );
    expected.extend(bytes(fixed, 12));
    assert_eq!(zone, expected);
}

#[test]
fn r6_bays() {
    let mut zone = fresh();
    let pointers = [0, 8, 0].map(|c| zone::allocate_fixed(&mut zone, c).unwrap());
    assert_eq!(pointers, [64, 52, 48]);
    assert_eq!(zone::free_pointer(&mut zone, 52), Ok(()));
    assert_eq!(zone::sum(&zone), Ok((24, 12)));
    let before = zone.clone();
    assert_eq!(refusal(zone::allocate_relocatable(&mut zone, 9)), 5);
    assert_eq!(zone, before);
    assert_eq!(zone::allocate_relocatable(&mut zone, 8), Ok(16));
    assert_eq!(zone::allocate_relocatable(&mut zone, 8), Ok(20));
    let expected = "00000040 00000020 00000004 00180000 00000024 00000034 0000001C 00000000
        80060010 00000000 00000000 40020000 80060014 00000000 00000000 40020000";
    assert_eq!(zone, bytes(expected, 64));
}

#[test]
fn r7_shrink_and_r8_shrink_all() {
    let mut zone = fresh();
    assert_eq!(zone::shrink(&mut zone, 10), Ok(8));
    let expected = "00000038 00000020 00000004 00100000 00000014 00000018 0000001C 00000000 0000000C";
    assert_eq!(zone, bytes(expected, 64));
    let mut zone = fresh();
    assert_eq!(zone::shrink(&mut zone, 1_000), Ok(32));
    let expected = "00000020 00000020 00000004 00100000 00000014 00000018 0000001C 00000000";
    assert_eq!(zone, bytes(expected, 64));
}

#[test]
fn r9_and_r10_refusals() {
    let mut zone = fresh();
    assert_eq!(refusal(zone::enlarge(&mut zone, 3)), 9);
    assert_eq!(refusal(zone::allocate_relocatable(&mut zone, 32_761)), 3);
    assert_eq!(zone, fresh());
}

// ---------------------------------------------------------------- zone-run

fn record(code: u8, a: u32, b: u32, d: u32) -> Vec<u8> {
    let mut record = vec![code, 0, 0, 0];
    record.extend([a, b, d].into_iter().flat_map(u32::to_be_bytes));
    record
}

fn zone_run(list: &[u8]) -> String {
    let mut buffer = vec![0; records::BUFFER];
    let mut output = Vec::new();
    lines::run(list, &mut output, |one| records::carry_out(&mut buffer, one)).unwrap();
    String::from_utf8(output).unwrap()
}

#[test]
fn zone_run_example() {
    let list = [record(0, 64, 4, 9), record(1, 6, 9, 9), record(2, 0, 9, 9), record(3, 20, 9, 9)];
    assert_eq!(zone_run(&list.concat()), "0 0\n0 16\n0 64\n6 0\n");
}

#[test]
fn zone_run_codes() {
    let mut list = Vec::new();
    let mut expected = String::new();
    let mut add = |bytes: Vec<u8>, line: &str| {
        list.extend(bytes);
        expected.push_str(line);
        expected.push('\n');
    };
    for code in 1..=10 {
        add(record(code, 16, 0, 0), "1 0");
    }
    add(record(0, 66, 4, 0), "2 0");
    add(record(8, 0, 0, 0), "1 0");
    add(record(0, 64, 4, 0), "0 0");
    add(record(1, 6, 0, 0), "0 16");
    add(record(6, 16, 7, 0x1234_56AB), "0 0");
    add(record(7, 16, 7, 0), "0 171");
    add(record(7, 16, 8, 0), "8 0");
    add(record(7, 16, 0xFFFF_FFFF, 0), "8 0");
    add(record(7, 65_552, 0, 0), "6 0");
    add(record(0, 64, 0x4000_0000, 0), "2 0");
    add(record(11, 0, 0, 0), "skip");
    add([vec![3, 0, 0, 1], vec![0, 0, 0, 16], vec![0; 8]].concat(), "skip");
    add(record(7, 16, 7, 0), "0 171");
    add(record(9, 8, 0, 0), "0 0");
    add(record(9, 65_472, 0, 0), "9 0");
    add(record(10, 11, 0, 0), "0 8");
    add(record(8, 0, 0, 0), "0 20");
    add(record(4, 64, 0, 0), "7 0");
    add(record(2, 32_761, 0, 0), "3 0");
    add(record(5, 16, 28, 0), "0 0");
    add(record(5, 16, 29, 0), "5 0");
    add(record(5, 20, 40_000, 0), "6 0");
    add(record(5, 16, 40_000, 0), "3 0");
    add(record(3, 16, 0, 0), "0 0");
    add(record(0, 16, 0, 0), "0 0");
    add(record(1, 32_760, 0, 0), "4 0");
    add(vec![1, 0, 0], "");
    expected.pop();
    assert_eq!(zone_run(&list), expected);
}

// ------------------------------------------------------- single statements

#[test]
fn order_of_refusals() {
    let mut zone = fresh();
    assert_eq!(refusal(zone::resize(&mut zone, 16, 40_000)), 6);
    assert_eq!(zone::allocate_relocatable(&mut zone, 28), Ok(16));
    assert_eq!(refusal(zone::resize(&mut zone, 16, 32_761)), 3);
    let past = Stretch { block: Target::Handle(16), offset: 28, count: 1 };
    assert_eq!(refusal(zone::read(&zone, past, &mut [])), 8);
    let at_end = Stretch { count: 0, ..past };
    assert_eq!(refusal(zone::read(&zone, at_end, &mut [])), 0);
    let whole = Stretch { offset: 0, count: 28, ..past };
    assert_eq!(refusal(zone::read(&zone, whole, &mut [7; 27])), 10);
    assert_eq!(refusal(zone::roster(&zone, &mut [7; 7])), 10);
    let mut none = vec![0; 16];
    assert_eq!(zone::initialize(&mut none, 16, 0), Ok(()));
    assert_eq!(refusal(zone::allocate_relocatable(&mut none, 32_761)), 3);
    assert_eq!(refusal(zone::allocate_relocatable(&mut none, 32_760)), 4);
    assert_eq!(refusal(zone::allocate_fixed(&mut none, 32_761)), 3);
    assert_eq!(refusal(zone::allocate_fixed(&mut none, 32_760)), 5);
}

#[test]
fn freed_masters_come_back_last_first() {
    let mut zone = fresh();
    for handle in [16, 20, 24] {
        assert_eq!(zone::allocate_relocatable(&mut zone, 0), Ok(handle));
    }
    assert_eq!(zone::free_handle(&mut zone, 16), Ok(()));
    assert_eq!(zone::free_handle(&mut zone, 20), Ok(()));
    assert_eq!(zone::allocate_relocatable(&mut zone, 0), Ok(20));
    assert_eq!(zone::allocate_relocatable(&mut zone, 0), Ok(16));
    assert_eq!(zone::allocate_relocatable(&mut zone, 0), Ok(28));
}

#[test]
fn largest_zone_and_largest_blocks() {
    let mut zone = vec![0xEE; 1_048_580];
    assert_eq!(refusal(zone::initialize(&mut zone, 1_048_580, 0)), 2);
    assert_eq!(refusal(zone::initialize(&mut zone, 1_048_576, 8_189)), 2);
    assert_eq!(zone::initialize(&mut zone, 1_048_576, 0), Ok(()));
    assert_eq!(zone::census(&zone, &[]).unwrap()[18], 1);
    assert_eq!(zone::initialize(&mut zone, 1_048_576, 8_188), Ok(()));
    assert_eq!(zone::allocate_relocatable(&mut zone, 32_760), Ok(16));
    assert_eq!(zone::size(&zone, Target::Handle(16)), Ok(32_760));
    assert_eq!(refusal(zone::allocate_fixed(&mut zone, 32_761)), 3);
    assert_eq!(zone::allocate_fixed(&mut zone, 32_760), Ok(1_048_576 - 32_764 + 4));
    assert_eq!(zone::size(&zone, Target::Pointer(1_015_816)), Ok(32_760));
    assert_eq!(refusal(zone::enlarge(&mut zone, 4)), 9);
    assert_eq!(zone::shrink(&mut zone, u32::MAX), Ok(0));
    assert_eq!(rules::broken_rule(&zone), None);
    assert_eq!(zone[1_048_576..], [0xEE; 4]);
}

/// A fresh zone of any length and m, within the limits or not.
fn fresh_picture(length: usize, m: u32) -> Vec<u8> {
    let chain = (0..m).map(|i| 16 + 4 * i).collect();
    let free = length - 16 - 4 * m as usize;
    let items = if free > 0 { vec![Item::Free(free)] } else { vec![] };
    Picture { length, m: m as usize, chain, clock: 0, items }.encode()
}

#[test]
fn limits_of_the_check() {
    for (length, m, good) in [
        (16, 0, true),
        (1_048_576, 0, true),
        (1_048_580, 0, false),
        (16 + 4 * 8_188, 8_188, true),
        (16 + 4 * 8_189, 8_189, false),
        (65_536, 8_188, true),
        (65_536, 8_189, false),
    ] {
        let zone = fresh_picture(length, m);
        assert_eq!(zone::check(&zone), (good, 0), "L = {length}, m = {m}");
        assert_eq!(zone::check(&zone[..length - 1]), (false, 0));
        assert_eq!(rules::check(&zone), (good, 0), "L = {length}, m = {m}");
    }
}

#[test]
fn a_view_is_that_part_of_the_zone() {
    let mut zone = after_r2();
    write_all(&mut zone, Target::Handle(16), b"shortone");
    let stretch = Stretch { block: Target::Handle(16), offset: 2, count: 5 };
    let part = zone::view(&zone, stretch);
    assert_eq!(part, b"orton");
    assert_eq!(part.as_ptr() as usize - zone.as_ptr() as usize, 38);
    assert_eq!(zone::view(&zone, Stretch { offset: 4, ..stretch }), b"");
    assert_eq!(zone::view(&[], stretch), b"");
}

#[test]
fn a_walker_goes_round_the_blocks() {
    let mut zone = after_r2();
    assert_eq!(zone::allocate_fixed(&mut zone, 5), Ok(56));
    let mut walker = zone::Walker::start(&zone).unwrap();
    let mut seen = Vec::new();
    for _ in 0..5 {
        let step = walker.advance(&zone).unwrap();
        seen.push((step.kind, step.offset, step.size));
    }
    assert_eq!(seen, [(2, 32, 12), (0, 44, 8), (1, 52, 12), (0, 0, 0), (0, 0, 0)]);
    assert_eq!(walker.offset, 64);
}

// ------------------------------------------- fixed blocks, data from byte 4

/// A fixed block without data has its own end for a pointer: L, or where the next
/// block begins.
#[test]
fn a_pointer_of_no_data() {
    let mut zone = fresh();
    let mut ledger = Ledger::new(64, 64, 4);
    for (c, pointer) in [(0, 64), (0, 60), (4, 52)] {
        let reply = compare(&mut zone, &Call::Fixed(c), &[], Some(&mut ledger));
        assert_eq!(reply, Reply::new(0, &[pointer]));
    }
    assert_eq!(zone[48..], bytes("40040000 00000000 40020000 40020000", 16));
    let sizes = [(64, Some(0)), (60, Some(0)), (52, Some(4))];
    for (pointer, size) in sizes.into_iter().chain([68, 62, 58, 56, 50, 48].map(|at| (at, None))) {
        let block = Target::Pointer(pointer);
        let stretch = |count| Stretch { block, offset: 0, count };
        for (call, number) in [
            (Call::Size(block), 0),
            (Call::Read(stretch(0)), 0),
            (Call::Write(stretch(0)), 0),
            (Call::Read(stretch(5)), 8),
            (Call::FreePointer(pointer), 0),
        ] {
            let reply = compare(&mut zone.clone(), &call, b"longer", Some(&mut ledger.clone()));
            assert_eq!(reply.refusal, Some(size.map_or(7, |_| number)), "{call:?}");
        }
        assert_eq!(zone::size(&zone, block).ok(), size);
        let part = zone::view(&zone, stretch(0));
        let offset = part.as_ptr() as usize - zone.as_ptr() as usize;
        assert_eq!((offset, part.len()), (size.map_or(0, |_| pointer as usize), 0));
    }
}

/// "an older image that holds a fixed block is refused unless it meets the new
/// layout": the block had its data from byte 2.
#[test]
fn an_older_image() {
    let older = |block: &str| {
        let mut zone = bytes("0000001C 00000010 00000000 00000000", 16);
        zone.extend(bytes(block, 12));
        zone
    };
    for (block, good) in [
        ("40060102 03040506 0708090A", false),
        ("40060100 03040506 0708090A", false),
        ("40060002 03040506 0708090A", false),
        ("40060000 03040506 0708090A", true),
    ] {
        let zone = older(block);
        let broken = if good { None } else { Some(rules::SECOND_WORD) };
        assert_eq!((zone::check(&zone), rules::broken_rule(&zone)), ((good, 0), broken), "{block}");
        let size = zone::size(&zone, Target::Pointer(20));
        assert_eq!(size, if good { Ok(8) } else { Err(zone::Refusal::NotWellFormed) });
    }
}

// ---------------------------------------------------------- tightest hole

/// Size of the blocks that keep holes apart.
const KEEPER: usize = 8;

fn keeper(handle: u32) -> Item {
    Item::Relocatable(handle, vec![0xBB; KEEPER - 4])
}

/// A fixed block of 8 bytes, which keeps bays apart.
fn wall() -> Item {
    Item::Fixed(vec![0xFF; 4])
}

/// A zone with holes of these sizes in its lower bay, a keeper after each of
/// them: handles 16, 20 and so on. The bay above is full: it has one block of 8
/// data bytes, whose handle is answered. One more master is free.
fn pitted(holes: &[usize]) -> (Vec<u8>, u32) {
    let keepers = (0..holes.len() as u32).map(|i| keeper(16 + 4 * i));
    let mut items: Vec<Item> =
        holes.iter().zip(keepers).flat_map(|(&hole, keeper)| [Item::Free(hole), keeper]).collect();
    let (upper, m) = (16 + 4 * holes.len() as u32, holes.len() + 2);
    items.extend([wall(), Item::Relocatable(upper, vec![0xAA; 8])]);
    let length = 16 + 4 * m + items.iter().map(Item::size).sum::<usize>();
    (Picture { length, m, chain: vec![upper + 4], clock: 0, items }.encode(), upper)
}

/// The offset of a hole's first byte.
fn hole_at(holes: &[usize], which: usize) -> usize {
    16 + 4 * (holes.len() + 2) + holes[..which].iter().map(|hole| hole + KEEPER).sum::<usize>()
}

/// Holes, bytes wanted, and the hole that is taken.
const CHOICES: [(&[usize], u32, usize); 12] = [
    // a lower one is big enough but larger
    (&[32, 16], 12, 1),
    (&[32, 24, 16, 20], 12, 2),
    (&[32, 24, 16, 20], 16, 3),
    (&[32, 24, 16, 20], 20, 1),
    (&[32, 24, 16, 20], 24, 0),
    // one that is too small is passed by, below and above
    (&[12, 32, 16, 12], 12, 2),
    (&[12, 16, 12, 32], 9, 1),
    (&[20, 4, 16], 16, 0),
    // the lowest of equals
    (&[16, 16, 16], 12, 0),
    (&[32, 16, 24, 16], 12, 1),
    (&[20, 24, 20], 13, 0),
    (&[24, 20, 8, 20, 24], 16, 1),
];

#[test]
fn an_allocation_takes_the_tightest_hole() {
    for (holes, c, which) in CHOICES {
        let (mut zone, upper) = pitted(holes);
        let before = zone.clone();
        compare(&mut zone, &Call::Relocatable(c), &[], None);
        let data = hole_at(holes, which) + 4;
        assert_eq!(master(&zone, upper as usize + 4) as usize, data, "{c} bytes, {holes:?}");
        assert_no_slide(&before, &zone, holes.len());
    }
}

#[test]
fn a_resize_to_another_bay_takes_the_tightest_hole() {
    for (holes, c, which) in CHOICES {
        let (mut zone, upper) = pitted(holes);
        let before = zone.clone();
        compare(&mut zone, &Call::Resize(upper, c), &[], None);
        let data = hole_at(holes, which) + 4;
        assert_eq!(master(&zone, upper as usize) as usize, data, "{c} bytes, {holes:?}");
        assert_eq!(zone[data..data + 12], [[0xAA; 8].as_slice(), &[0; 4]].concat());
        assert_no_slide(&before, &zone, holes.len());
    }
}

/// A hole was big enough, so the blocks beside it stay where they are.
fn assert_no_slide(before: &[u8], zone: &[u8], keepers: usize) {
    assert_eq!(before[16..16 + 4 * keepers], zone[16..16 + 4 * keepers], "the keepers' masters");
}

/// The bay is chosen as document 01 has it: a tighter hole in a higher bay is
/// passed by, and where no hole is big enough the lowest bay is compacted.
#[test]
fn the_bay_is_the_lowest_whose_sum_reaches_the_need() {
    let bay = |one, handle, other| {
        [Item::Free(one), keeper(handle), Item::Free(other), wall()]
    };
    let items = [bay(12, 16, 32), bay(16, 20, 12)].concat();
    let length = 28 + items.iter().map(Item::size).sum::<usize>();
    let picture = Picture { length, m: 3, chain: vec![24], clock: 0, items };
    // 12 data bytes: the hole of 32 below, not the one of 16 above
    let mut zone = picture.encode();
    compare(&mut zone, &Call::Relocatable(12), &[], None);
    assert_eq!(master(&zone, 24), 28 + 12 + 8 + 4);
    // 36 data bytes: 12 and 32 bytes lie free, 40 are needed
    let mut zone = picture.encode();
    compare(&mut zone, &Call::Relocatable(36), &[], None);
    assert_eq!((master(&zone, 16), master(&zone, 24)), (28 + 4, 28 + 8 + 4));
}

/// A fixed block takes the high end of the last hole, and a block grows into
/// the hole right after it, though tighter ones stand below.
#[test]
fn fixed_blocks_and_growth_do_not_look_for_the_tightest_hole() {
    let items = vec![Item::Free(8), keeper(16), Item::Free(32)];
    let zone = Picture { length: 24 + 48, m: 2, chain: vec![20], clock: 0, items }.encode();
    let mut one = zone.clone();
    let reply = compare(&mut one, &Call::Fixed(4), &[], None);
    assert_eq!(reply, Reply::new(0, &[24 + 48 - 4]));
    let mut other = zone;
    compare(&mut other, &Call::Resize(16, 8), &[], None);
    assert_eq!(master(&other, 16), 24 + 8 + 4);
}

// ------------------------------------------------------- masters that grow

/// A zone of these blocks whose masters are all in use, and 8 bytes beyond it.
fn full(items: Vec<Item>) -> Vec<u8> {
    let m = items.iter().filter(|item| matches!(item, Item::Relocatable(..))).count();
    let length = 16 + 4 * m + items.iter().map(Item::size).sum::<usize>();
    let mut zone = Picture { length, m, chain: vec![], clock: 0, items }.encode();
    zone.extend([0xEE; 8]);
    zone
}

fn block(handle: u32, data: &[u8]) -> Item {
    Item::Relocatable(handle, data.to_vec())
}

/// An allocation of c bytes: its handle, and the zone's bytes, 8 of them beyond
/// it.
fn assert_grows(mut zone: Vec<u8>, c: u32, handle: u32, wanted: &str) -> Vec<u8> {
    let reply = compare(&mut zone, &Call::Relocatable(c), &[], None);
    assert_eq!(reply, Reply::new(0, &[handle]));
    let length = zone.len() - 8;
    assert_eq!(zone, [bytes(wanted, length), vec![0xEE; 8]].concat());
    zone
}

fn assert_refused(zone: &[u8], c: u32, number: u32) {
    let mut after = zone.to_vec();
    let reply = compare(&mut after, &Call::Relocatable(c), &[], None);
    assert_eq!(reply, Reply::new(number, &[0]), "{c} bytes");
    assert_eq!(after, zone, "a refused call changes no byte");
}

/// m = 0, and a first bay without a block.
#[test]
fn masters_where_there_was_none() {
    let zone = full(vec![Item::Free(48)]);
    let masters = "00000040 00000030 00000008 00140000
        00000034 00000018 0000001C 00000020 00000024 00000028 0000002C 00000000";
    assert_grows(zone.clone(), 4, 16, &format!("{masters} 80040010 00000000 00000004"));
    // 48 bytes less 32
    assert_grows(zone.clone(), 12, 16, &format!("{masters} 80080010"));
    assert_refused(&zone, 13, 5);
    assert_refused(&zone, 32_760, 5);
    assert_refused(&zone, 32_761, 3);
}

/// The first block goes up by 24 bytes, the second down by 16.
fn both_ways() -> Vec<u8> {
    full(vec![
        Item::Free(8),
        block(16, b"basisrec"),
        Item::Free(40),
        block(20, b"MARK"),
        Item::Free(4),
    ])
}

#[test]
fn blocks_go_up_and_down() {
    let head = "00000060 00000038 0000000A 001C0000 0000003C 00000048
        00000050 00000020 00000024 00000028 0000002C 00000030 00000034 00000000
        80060010 62617369 73726563 80040014 4D41524B";
    let new = "80060018 00000000 00000000 00000004";
    let zone = assert_grows(both_ways(), 5, 24, &format!("{head} {new}"));
    // where bkFst was, no block starts any more
    let mut walker = zone::Walker { offset: 24 };
    assert_eq!(walker.advance(&zone), Ok(zone::Step::default()));
    assert_eq!((walker.offset, zone::Walker::start(&zone).unwrap().offset), (24, 56));
    // the whole rest of the first bay
    assert_grows(both_ways(), 16, 24, &format!("{head} 800A0018"));
    // 52 bytes are free, 20 of them after the masters
    assert_refused(&both_ways(), 17, 5);
    assert_refused(&both_ways(), 48, 5);
}

/// Blocks longer than their slide, one of each way and one that stays.
#[test]
fn long_blocks_slide_over_themselves() {
    let data = |first: u8| (first..first + 60).collect::<Vec<u8>>();
    let blocks = [data(1), data(61), data(121), data(181)];
    let holes = [0, 12, 20, 28];
    let items = holes.iter().zip(&blocks).enumerate().flat_map(|(i, (&hole, data))| {
        [Item::Free(hole), block(16 + 4 * i as u32, data)].into_iter().skip(usize::from(hole == 0))
    });
    let mut zone = full(items.collect());
    let before: Vec<u32> = (0..4).map(|i| master(&zone, 16 + 4 * i)).collect();
    compare(&mut zone, &Call::Relocatable(20), &[], None);
    let slides = [32, 20, 0, -28];
    for i in 0..4 {
        let at = master(&zone, 16 + 4 * i) as usize;
        assert_eq!(at as i64, i64::from(before[i]) + slides[i], "block {i}");
        assert_eq!(zone[at..at + 60], blocks[i]);
    }
}

/// A first bay of just 32 bytes is full then; its block goes up, the new one
/// goes to the other bay, and the fixed block between them stays.
#[test]
fn the_block_goes_to_another_bay() {
    let zone = full(vec![
        block(16, b"MARK"),
        Item::Free(32),
        Item::Fixed(vec![0xF1, 0xF2, 0xF3, 0xF4]),
        Item::Free(12),
    ]);
    let expected = "00000050 00000034 00000009 00180000 00000038
        00000048 0000001C 00000020 00000024 00000028 0000002C 00000030 00000000
        80040010 4D41524B 40040000 F1F2F3F4 80060014";
    assert_grows(zone.clone(), 8, 20, expected);
    // 32 bytes were enough for it, 0 and 12 are not
    assert_refused(&zone, 9, 5);
    assert_refused(&zone, 28, 5);
}

/// The tightest hole of another bay, the lowest of equals; the first bay is laid
/// out anew all the same.
#[test]
fn another_bay_has_its_tightest_hole_taken() {
    let upper = [24, 16, 12, 16].map(Item::Free).into_iter().zip([20, 24, 28, 32].map(keeper));
    let items = [Item::Free(20), keeper(16), Item::Free(16), wall()];
    let items = items.into_iter().chain(upper.flat_map(|(hole, keeper)| [hole, keeper]));
    let mut zone = full(items.collect());
    compare(&mut zone, &Call::Relocatable(12), &[], None);
    let upper = 36 + 20 + 8 + 16 + 8;
    assert_eq!(master(&zone, 36), upper + 24 + 8 + 4);
    assert_eq!(master(&zone, 16), 36 + 32 + 4);
    assert_eq!(zone[36 + 32 + 8..][..4], [0, 0, 0, 2], "4 bytes are left in the first bay");
}

/// 4 by the first bay alone, whatever the others have; 5 comes after it.
#[test]
fn too_little_in_the_first_bay() {
    let walls = || [wall(), Item::Free(400)];
    for holes in [vec![28], vec![8, 20], vec![]] {
        let blocks = (0..).map(|i| block(16 + 4 * i, b""));
        let items = holes.iter().zip(blocks).flat_map(|(&hole, block)| [Item::Free(hole), block]);
        let zone = full(items.chain(walls()).collect());
        assert_refused(&zone, 0, 4);
        assert_refused(&zone, 32_760, 4);
        assert_refused(&zone, 32_761, 3);
    }
    // with 32 bytes there, what the other bay has decides
    let mut zone = full([Item::Free(32)].into_iter().chain(walls()).collect());
    assert_refused(&zone, 397, 5);
    compare(&mut zone, &Call::Relocatable(396), &[], None);
    assert_eq!(master(&zone, 16), 16 + 32 + 8 + 4);
}

/// Eight handles, one after the other, then eight more.
#[test]
fn eight_handles_at_a_time() {
    let mut zone = vec![0xEE; 200];
    assert_eq!(zone::initialize(&mut zone, 200, 0), Ok(()));
    let mut ledger = Ledger::new(200, 200, 0);
    for i in 0..17 {
        let reply = compare(&mut zone, &Call::Relocatable(0), &[], Some(&mut ledger));
        assert_eq!(reply, Reply::new(0, &[16 + 4 * i]));
        assert_eq!(master(&zone, 8), 8 * (i / 8 + 1), "m");
    }
    // one that is freed comes first again
    compare(&mut zone, &Call::FreeHandle(20), &[], Some(&mut ledger));
    let reply = compare(&mut zone, &Call::Relocatable(0), &[], Some(&mut ledger));
    assert_eq!(reply, Reply::new(0, &[20]));
}

/// "m + 8 above 8,188", with bytes enough in the first bay.
#[test]
fn masters_up_to_their_limit() {
    for (m, last) in [(8_180, 8_188), (8_181, 8_181), (8_172, 8_188), (8_173, 8_181)] {
        let length = 16 + 8 * last + 32;
        let mut zone = vec![0; length as usize];
        assert_eq!(zone::initialize(&mut zone, length, m), Ok(()));
        let mut ledger = Ledger::new(zone.len(), length, m);
        for i in 0..last {
            assert_eq!(zone::allocate_relocatable(&mut zone, 0), Ok(16 + 4 * i));
            assert_eq!(ledger.ask(&Call::Relocatable(0), &mut []), Reply::new(0, &[16 + 4 * i]));
        }
        assert_eq!(zone::sum(&zone), Ok((32, 32)));
        let reply = compare(&mut zone, &Call::Relocatable(0), &[], Some(&mut ledger));
        assert_eq!((reply, master(&zone, 8)), (Reply::new(4, &[0]), last));
    }
}

/// A resize takes no handle.
#[test]
fn a_resize_adds_no_master() {
    let zone = both_ways();
    for c in [12, 49, 60, 61] {
        let mut after = zone.clone();
        let reply = compare(&mut after, &Call::Resize(16, c), &[], None);
        assert_eq!(reply.refusal, Some(if c > 60 { 5 } else { 0 }));
        assert_eq!(after[4..14], zone[4..14], "bkFst, m and chain");
    }
}

// --------------------------------------------- comparing with the two models

/// A zone and its ledger after calls that leave handles 24 and 20 in the first
/// bay, in this order, and 16 in the second: 20 was made first, 16 last.
fn handles_out_of_order() -> (Vec<u8>, Ledger) {
    let mut zone = vec![0xEE; 96];
    assert_eq!(zone::initialize(&mut zone, 96, 5), Ok(()));
    let mut ledger = Ledger::new(96, 96, 5);
    for (call, value) in [
        (Call::Fixed(0), Some(96)),
        (Call::Fixed(16), Some(76)),
        (Call::Fixed(0), Some(72)),
        (Call::FreePointer(76), None),
        (Call::Relocatable(12), Some(16)),
        (Call::Relocatable(4), Some(20)),
        (Call::Relocatable(0), Some(24)),
        (Call::FreeHandle(16), None),
        (Call::FreeHandle(24), None),
        (Call::Relocatable(8), Some(24)),
        (Call::Resize(20, 12), None),
        (Call::Relocatable(0), Some(16)),
        (Call::Resize(16, 12), None),
    ] {
        let reply = compare(&mut zone, &call, &[], Some(&mut ledger));
        assert_eq!((reply.refusal, reply.values.first().copied()), (Some(0), value), "{call:?}");
    }
    assert_eq!(Picture::decode(&zone).handles(), [24, 20, 16], "the blocks as they stand");
    (zone, ledger)
}

const BY_RISING_HANDLE: &str = "00000010 0000000C 00000014 0000000C 00000018 00000008";

#[test]
fn a_roster_comes_by_rising_handle() {
    let (mut zone, mut ledger) = handles_out_of_order();
    // three records, and bytes behind them that stay
    let lent = [0xEE; 29];
    let wanted = [bytes(BY_RISING_HANDLE, 24), vec![0xEE; 5]].concat();
    let (mut of_zone, mut of_model, mut of_ledger) = (lent, lent, lent);
    let three = Reply::new(0, &[3]);
    assert_eq!(ask_zone(&mut zone, &Call::Roster, &mut of_zone), three);
    assert_eq!(ask_model(&mut zone, &Call::Roster, &mut of_model), three);
    assert_eq!(ledger.ask(&Call::Roster, &mut of_ledger), three);
    assert_eq!(of_zone[..], wanted, "the zone's");
    assert_eq!(of_model[..], wanted, "the model's");
    assert_eq!(of_ledger[..], wanted, "the ledger's");
}

/// The archive is compared by `difference`.
#[test]
fn two_records_swapped_are_a_difference() {
    let (zone, reply) = (handles_out_of_order().0, Reply::new(0, &[3]));
    let wanted = [bytes(BY_RISING_HANDLE, 24), vec![0xEE; 5]].concat();
    let told = |second: &[u8]| {
        difference(
            &Left { reply: &reply, zone: &zone, second: &wanted },
            &Left { reply: &reply, zone: &zone, second },
        )
    };
    assert_eq!(told(&wanted), None);
    let swapped = [&wanted[..8], &wanted[16..24], &wanted[8..16], &wanted[24..]].concat();
    assert_eq!(told(&swapped).as_deref(), Some("byte 11 of the second buffer should be 14"));
    let mut later = wanted.clone();
    later[28] = 0;
    assert_eq!(told(&later).as_deref(), Some("byte 28 of the second buffer should be EE"));
}

/// One call: the zone against the model in every byte of both buffers, the
/// rules one by one, and against the ledger if there is one.
fn compare(buffer: &mut Vec<u8>, call: &Call, second: &[u8], ledger: Option<&mut Ledger>) -> Reply {
    let before = buffer.clone();
    let mut after_model = buffer.clone();
    let (mut of_zone, mut of_model) = (second.to_vec(), second.to_vec());
    let reply = ask_zone(buffer, call, &mut of_zone);
    let wanted = ask_model(&mut after_model, call, &mut of_model);
    let story = || format!("{call:?}\nsecond {second:02X?}\nbefore {before:02X?}\nafter  {buffer:02X?}\nwanted {after_model:02X?}");
    assert_eq!(reply, wanted, "answer to {}", story());
    assert!(*buffer == after_model, "bytes after {}", story());
    assert_eq!(of_zone, of_model, "second buffer after {}", story());
    if reply.refusal.unwrap_or(0) != 0 {
        assert!(*buffer == before && of_zone == second, "refused {}", story());
        assert_refused_values(call, &reply);
    }
    assert_eq!(zone::check(buffer), rules::check(buffer), "check after {}", story());
    if zone::check(&before).0 {
        assert_eq!(rules::broken_rule(buffer), None, "rules after {}", story());
    }
    let page = created_or_used(call, &reply);
    if let Some(name) = page {
        let place = Picture::decode(buffer).place_of(name);
        assert_eq!(place, reply.values.first().copied(), "data offset after {}", story());
    }
    if let Some(ledger) = ledger {
        let mut of_ledger = second.to_vec();
        let known = ledger.ask(call, &mut of_ledger);
        let compared = if page.is_some() { Reply::new(0, &[]) } else { reply.clone() };
        assert_eq!(compared, known, "the ledger's answer to {}", story());
        assert_eq!(of_zone, of_ledger, "the ledger's second buffer after {}", story());
        assert!(ledger.stands_in(buffer), "the ledger's bytes after {}", story());
    }
    reply
}

/// The name of the page whose data offset was answered: that "is valid until the
/// next call and isn't compared" with the ledger's (document 02, U5).
fn created_or_used(call: &Call, reply: &Reply) -> Option<u32> {
    match *call {
        Call::CreatePage(name, _) | Call::UsePage(name) if reply.refusal == Some(0) => Some(name),
        _ => None,
    }
}

/// "A call with several answers gives 0 for each when refused"; a refused step
/// stays where it is, and 12 names a page (document 02, U5).
fn assert_refused_values(call: &Call, reply: &Reply) {
    match *call {
        Call::CreatePage(..) if reply.refusal == Some(12) => assert_eq!(reply.values.len(), 1),
        Call::WalkerStep(offset) => assert_eq!(reply.values, [0, 0, 0, offset]),
        _ => assert!(reply.values.iter().all(|&value| value == 0), "{call:?} {reply:?}"),
    }
}

/// How many refusal numbers there are, 0 for done.
const NUMBERS: usize = 15;

/// Those that lists without pages must reach, initialize and broken zones apart.
const WITHOUT_PAGES: [usize; 9] = [3, 4, 5, 6, 7, 8, 9, 10, 14];

/// Counts of accepted calls (0) and of each refusal; of choices between holes; of
/// allocations that find no free master; of frees by a pointer of no data.
#[derive(Default)]
struct Tally {
    answers: [u64; NUMBERS],
    holes: holes::Counts,
    pool: pool::Counts,
    frees: fixed_ways::Counts,
}

impl Tally {
    fn count(&mut self, before: &[u8], call: &Call, reply: &Reply) {
        let Some(refusal) = reply.refusal else { return };
        self.answers[refusal as usize] += 1;
        if let Call::Relocatable(c) = *call {
            ways::add(&mut self.pool, &pool::of_allocation(before, c, refusal));
        }
        if let (Call::FreePointer(pointer), 0) = (*call, refusal) {
            ways::add(&mut self.frees, &fixed_ways::of_pointer(before, pointer));
        }
        let met = match *call {
            _ if refusal != 0 => return,
            Call::Relocatable(c) => holes::of_allocation(before, c),
            Call::Resize(handle, c) => holes::of_resize(before, handle, c),
            _ => return,
        };
        ways::add(&mut self.holes, &met);
    }

    fn tell(&self, name: &str) {
        let Tally { answers, holes, pool, frees } = self;
        println!("{name}; done and refused 1 to 14: {answers:?}; choices between holes: {holes:?}; no free master: {pool:?}; frees by a pointer of no data: {frees:?}");
    }

    /// The ways of `pool` that were never met, but for the one of large zones.
    fn pool_not_met(&self) -> Vec<&'static str> {
        let mut never = ways::never_met(pool::WAYS, &self.pool);
        never.retain(|&way| way != pool::WAYS[pool::WAYS.len() - 1]);
        never
    }
}

/// One list from an accepted initialize, against both models.
fn one_list(random: &mut Random, words: u32, steps: u32, tally: &mut Tally) {
    let length = 4 * words;
    let room = (words - 4).min(8_188);
    let m = match random.below(6) {
        0 => 0,
        1 => room,
        2 => random.below(room + 1),
        _ => random.between(1, 6).min(room),
    };
    let beyond = random.below(3) * random.below(60);
    let mut buffer: Vec<u8> = (0..length + beyond).map(|_| random.any() as u8).collect();
    let reply = compare(&mut buffer, &Call::Initialize(length, m), &[], None);
    assert_eq!(reply.refusal, Some(0));
    let mut ledger = Ledger::new(buffer.len(), length, m);
    let weights = random.pick(&WEIGHTS);
    for _ in 0..steps {
        let (call, second) = a_call(random, &buffer, &weights);
        let beside = Ledger::knows(&call).then_some(&mut ledger);
        let before = buffer.clone();
        let reply = compare(&mut buffer, &call, &second, beside);
        tally.count(&before, &call, &reply);
    }
}

fn many_lists(name: &str, seed: u64, lists: u32, steps: u32, words: impl Fn(&mut Random) -> u32) {
    let mut random = Random::new(seed);
    let mut tally = Tally::default();
    for _ in 0..lists {
        let words = words(&mut random);
        one_list(&mut random, words, steps, &mut tally);
    }
    tally.tell(&format!("{name}: {lists} lists of {steps} calls"));
    if lists > 100 {
        let reached = |&number: &usize| tally.answers[number] > 0;
        assert!(WITHOUT_PAGES.iter().all(reached), "a refusal was never reached");
        assert_eq!(tally.pool_not_met(), [""; 0], "never met");
        assert_eq!(ways::never_met(fixed_ways::WAYS, &tally.frees), [""; 0], "never met");
    }
}

#[test]
fn lists_on_small_zones() {
    many_lists("small zones", 1, 3_000, 150, |random| random.between(4, 40));
}

#[test]
fn lists_on_middle_zones() {
    many_lists("middle zones", 2, 400, 400, |random| random.between(40, 600));
}

#[test]
fn lists_on_large_zones() {
    many_lists("large zones", 3, 8, 300, |random| random.between(5_000, 40_000));
}

#[test]
fn lists_on_the_largest_zone() {
    many_lists("largest zones", 4, 2, 150, |_| 262_144);
}

// ------------------------------------------------------- zones at random

#[test]
fn one_call_on_zones_at_random() {
    let mut random = Random::new(5);
    let mut tally = Tally::default();
    for _ in 0..150_000 {
        let mut buffer = a_zone(&mut random, 14);
        assert_eq!(rules::broken_rule(&buffer), None);
        let weights = random.pick(&WEIGHTS);
        let (call, second) = a_call(&mut random, &buffer, &weights);
        let before = buffer.clone();
        let reply = compare(&mut buffer, &call, &second, None);
        tally.count(&before, &call, &reply);
    }
    tally.tell("zones at random");
}

#[test]
fn one_placing_on_pitted_zones() {
    let mut random = Random::new(9);
    let mut tally = Tally::default();
    for _ in 0..60_000 {
        let mut buffer = a_pitted_zone(&mut random);
        let before = buffer.clone();
        let (call, second) = a_call(&mut random, &buffer, &PLACING);
        let reply = compare(&mut buffer, &call, &second, None);
        tally.count(&before, &call, &reply);
    }
    tally.tell("pitted zones");
    assert_eq!(ways::never_met(holes::WAYS, &tally.holes), [""; 0], "never met");
}

#[test]
fn allocations_where_no_master_is_free() {
    let mut random = Random::new(10);
    let mut tally = Tally::default();
    for round in 0..60_000 {
        // few of the large zones
        let large = round % 1_000 == 0;
        let a_zone = if large { a_zone_of_all_masters } else { a_zone_without_free_master };
        let mut buffer = a_zone(&mut random);
        let before = buffer.clone();
        let (call, second) = a_call(&mut random, &buffer, &ALLOCATING);
        let reply = compare(&mut buffer, &call, &second, None);
        tally.count(&before, &call, &reply);
    }
    tally.tell("no free master");
    assert_eq!(ways::never_met(pool::WAYS, &tally.pool), [""; 0], "never met");
}

#[test]
fn initialize_over_anything() {
    let mut random = Random::new(6);
    let mut tally = Tally::default();
    for _ in 0..60_000 {
        let room = random.below(120);
        let mut buffer: Vec<u8> = (0..room).map(|_| random.any() as u8).collect();
        let mut weights = [0; CALLS_WITHOUT_PAGES];
        weights[CALLS_WITHOUT_PAGES - 1] = 1;
        let (call, second) = a_call(&mut random, &buffer, &weights);
        let reply = compare(&mut buffer, &call, &second, None);
        tally.count(&[], &call, &reply);
    }
    tally.tell("initialize");
    assert!(tally.answers[0] > 0 && tally.answers[2] > 0);
}

// ----------------------------------------------------------- broken buffers

#[test]
fn damaged_zones() {
    let mut random = Random::new(7);
    let (mut yes, mut no, mut second_words) = (0, 0, 0);
    for _ in 0..150_000 {
        let mut buffer = a_zone(&mut random, 10);
        if random.once_in(3) {
            break_a_rule(&mut random, &mut buffer);
        } else {
            damage(&mut random, &mut buffer);
        }
        assert_eq!(zone::check(&buffer), rules::check(&buffer), "{buffer:02X?}");
        let good = zone::check(&buffer).0;
        *if good { &mut yes } else { &mut no } += 1;
        second_words += u32::from(rules::broken_rule(&buffer) == Some(rules::SECOND_WORD));
        if random.once_in(4) {
            for (call, second) in every_call(&mut random, &buffer) {
                let reply = compare(&mut buffer.clone(), &call, &second, None);
                let judged = !matches!(call, Call::Check | Call::Initialize(..));
                let refused = !judged || reply.refusal.is_none_or(|number| number == 1);
                assert!(good || refused, "{call:?} on {buffer:02X?}");
            }
        }
    }
    println!("damaged zones: {yes} still well-formed, {no} not, {second_words} for a fixed block's second word");
    assert!(yes > 1_000 && no > 1_000 && second_words > 1_000);
}

#[test]
fn buffers_of_few_bytes_and_of_noise() {
    let mut random = Random::new(8);
    let mut yes = 0;
    for round in 0..60_000u32 {
        let length = if round < 64 { round } else { random.below(48) };
        let buffer = noise(&mut random, length);
        yes += u32::from(zone::check(&buffer).0);
        for (call, second) in every_call(&mut random, &buffer) {
            compare(&mut buffer.clone(), &call, &second, None);
        }
    }
    println!("noise: {yes} of 60000 buffers well-formed");
}

// --------------------------------------------- every state of small zones

/// Every state that calls with small numbers reach from a fresh zone, with
/// every such call in each of them. After each allocation or growth the
/// block's data are set by handle and place, so that slides show.
fn every_state(length: u32, beyond: u32, m: u32, most: usize) -> (usize, u64) {
    let mut first = vec![0xEE; (length + beyond) as usize];
    assert_eq!(zone::initialize(&mut first, length, m), Ok(()));
    let mut known = HashSet::from([first.clone()]);
    let mut open = vec![first];
    let mut calls = vec![Call::Compact, Call::Sum, Call::Check, Call::Census, Call::Enlarge(4)];
    let sizes: Vec<u32> = (0..=length - 16 - 4 * m).step_by(2).collect();
    // eight more for every 32 bytes
    let handles = m + 8 * ((length + beyond - 16 - 4 * m) / 32);
    for &c in &sizes {
        calls.extend([Call::Relocatable(c), Call::Fixed(c), Call::Shrink(c)]);
        calls.extend((0..handles).map(|i| Call::Resize(16 + 4 * i, c)));
    }
    calls.extend((0..handles).map(|i| Call::FreeHandle(16 + 4 * i)));
    calls.extend((16..=length + beyond).step_by(2).map(Call::FreePointer));
    let mut steps = 0;
    while let Some(state) = open.pop() {
        for call in &calls {
            let mut next = state.clone();
            compare(&mut next, call, &[], None);
            steps += 1;
            paint(&mut next);
            if next != state && known.len() < most && known.insert(next.clone()) {
                open.push(next);
            }
        }
    }
    (known.len(), steps)
}

/// Sets every block's data by its handle, or by its place if it is fixed.
fn paint(buffer: &mut [u8]) {
    let mut picture = Picture::decode(buffer);
    let mut at = 16 + 4 * picture.m;
    for item in &mut picture.items {
        let (seed, data) = match item {
            Item::Free(size) => {
                at += *size;
                continue;
            }
            Item::Fixed(data) => (at, data),
            Item::Relocatable(handle, data) => (*handle as usize, data),
            Item::Page(page) => (page.name as usize, &mut page.data),
        };
        for (i, byte) in data.iter_mut().enumerate() {
            *byte = (7 * seed + i + 1) as u8;
        }
        at += item.size();
    }
    let bytes = picture.encode();
    buffer[..bytes.len()].copy_from_slice(&bytes);
}

fn every_state_of(zones: &[(u32, u32, u32)]) {
    const MOST: usize = 100_000;
    for &(length, beyond, m) in zones {
        let (states, steps) = every_state(length, beyond, m, MOST);
        println!("every state of L = {length} + {beyond}, m = {m}: {states} states, {steps} calls");
        assert!(states < MOST, "not every state");
    }
}

#[test]
fn every_state_of_small_zones() {
    every_state_of(&[(16, 8, 0), (32, 4, 0), (36, 4, 1), (44, 0, 2), (48, 0, 3)]);
}

/// 36 bytes, of which 32 can become masters.
#[test]
fn every_state_of_a_small_zone_that_grows() {
    every_state_of(&[(52, 0, 0)]);
}

/// Takes half a minute: run by name, with `--ignored`.
#[test]
#[ignore]
fn every_state_of_larger_zones() {
    every_state_of(&[(48, 4, 2), (52, 0, 3), (56, 0, 1)]);
}
