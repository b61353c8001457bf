//! Compares every function of the archive with the Rust implementation:
//! `library [FRESH_SEED] [--trace]`.

#[allow(dead_code)]
mod arena;
mod arguments;
mod c_interface;
#[allow(dead_code)]
mod calls;
mod differ;
mod fixed_ways;
mod foreign;
mod holes;
mod library_pages;
mod limit_ways;
mod limits;
#[allow(dead_code)]
mod model;
mod page_ways;
mod page_zones;
mod pool;
mod random;
mod rules;
mod strata;
mod verdict;
#[allow(dead_code)]
mod ways;
#[allow(dead_code)]
mod zone;
mod zones;

use arguments::{a_call, every_call, ALLOCATING, PLACING, STRETCHES, WEIGHTS};
use calls::Call;
use differ::{Differ, Tally, BY_POINTER, LONG, NAMES, NUMBERS};
use model::{Item, Page, Picture};
use random::Random;
use std::process::ExitCode;
use std::thread;
use zone::{Stretch, Target};

const FIXED_SEED: u64 = 1;

/// Mills whose limits are held against sizes of free blocks.
const MILLS: usize = 6;

type Outcome = Result<(), String>;

/// A list of calls from an accepted initialize, in a zone of `words` words.
fn one_list(differ: &mut Differ, words: u32, steps: u32) -> Result<Vec<u8>, String> {
    let random = &mut differ.random;
    let room = (words - 4).min(8_188);
    let m = match random.below(6) {
        0 => random.below(3).min(room),
        1 => room,
        2 => random.between(1, 6).min(room),
        3 => random.below(room + 1),
        _ => (room / 8).max(1).min(room),
    };
    let beyond = random.below(3) * random.below(60);
    let mut buffer: Vec<u8> = (0..4 * words + beyond).map(|_| random.any() as u8).collect();
    let weights = random.pick(&WEIGHTS);
    differ.compare(&mut buffer, &Call::Initialize(4 * words, m), &[])?;
    for _ in 0..steps {
        let (call, second) = a_call(&mut differ.random, &buffer, &weights);
        differ.compare(&mut buffer, &call, &second)?;
    }
    Ok(buffer)
}

fn lists(differ: &mut Differ, count: u32, steps: u32, least: u32, most: u32) -> Outcome {
    for _ in 0..count {
        let words = differ.random.between(least, most);
        one_list(differ, words, steps)?;
    }
    Ok(())
}

/// Each call once, on copies of the buffer.
fn each_call(differ: &mut Differ, buffer: &[u8]) -> Outcome {
    for (call, second) in every_call(&mut differ.random, buffer) {
        differ.compare(&mut buffer.to_vec(), &call, &second)?;
    }
    Ok(())
}

/// Zones built at random: as they are, damaged, and with one rule broken.
fn zones_at_random(differ: &mut Differ, count: u32) -> Outcome {
    for _ in 0..count {
        let zone = zones::a_zone(&mut differ.random, 14);
        each_call(differ, &zone)?;
        let mut damaged = zone.clone();
        zones::damage(&mut differ.random, &mut damaged);
        each_call(differ, &damaged)?;
        let mut broken = zone;
        zones::break_a_rule(&mut differ.random, &mut broken);
        each_call(differ, &broken)?;
    }
    Ok(())
}

/// A block goes into a bay with many holes, by an allocation or a resize.
fn pitted_zones(differ: &mut Differ, count: u32) -> Outcome {
    for _ in 0..count {
        let mut zone = zones::a_pitted_zone(&mut differ.random);
        let (call, second) = a_call(&mut differ.random, &zone, &PLACING);
        differ.compare(&mut zone, &call, &second)?;
    }
    Ok(())
}

/// A block is allocated where no master is free, then two more.
fn full_zones(differ: &mut Differ, count: u32, zone: fn(&mut Random) -> Vec<u8>) -> Outcome {
    for _ in 0..count {
        let mut zone = zone(&mut differ.random);
        for _ in 0..3 {
            let (call, second) = a_call(&mut differ.random, &zone, &ALLOCATING);
            differ.compare(&mut zone, &call, &second)?;
        }
    }
    Ok(())
}

/// Zones that lists reached, then the same with one rule broken.
fn reached_zones(differ: &mut Differ, count: u32, breaks: u32, most: u32) -> Outcome {
    for _ in 0..count {
        let words = differ.random.between(most / 4, most);
        let zone = one_list(differ, words, 60)?;
        each_call(differ, &zone)?;
        for _ in 0..breaks {
            let mut broken = zone.clone();
            zones::break_a_rule(&mut differ.random, &mut broken);
            each_call(differ, &broken)?;
        }
    }
    Ok(())
}

/// Few blocks and large ones, read, written and viewed in long stretches.
fn long_stretches(differ: &mut Differ, count: u32) -> Outcome {
    for _ in 0..count {
        let mut buffer: Vec<u8> = (0..65_536).map(|_| differ.random.any() as u8).collect();
        differ.compare(&mut buffer, &Call::Initialize(65_536, 8), &[])?;
        for _ in 0..3 {
            let (one, other) = (differ.random.below(10_000), differ.random.below(10_000));
            differ.compare(&mut buffer, &Call::Relocatable(one), &[])?;
            differ.compare(&mut buffer, &Call::Fixed(other), &[])?;
        }
        for _ in 0..60 {
            let (call, second) = a_call(&mut differ.random, &buffer, &STRETCHES);
            differ.compare(&mut buffer, &call, &second)?;
        }
    }
    Ok(())
}

/// A fixed block of the most data bytes, one byte more, and its two ends.
fn the_largest_fixed_block(differ: &mut Differ) -> Outcome {
    const LENGTH: u32 = 32_784;
    let mut buffer = vec![0xEE; LENGTH as usize + 5];
    let block = Target::Pointer(LENGTH - 32_760);
    let stretch = |offset, count| Stretch { block, offset, count };
    for call in [
        Call::Initialize(LENGTH, 0),
        Call::Fixed(32_761),
        Call::Fixed(32_760),
        Call::Size(block),
        Call::Write(stretch(0, 4)),
        Call::Write(stretch(32_756, 4)),
        Call::Read(stretch(32_757, 4)),
        Call::View(stretch(0, 32_760)),
        Call::FreePointer(LENGTH - 32_762),
        Call::FreePointer(LENGTH - 32_760),
    ] {
        differ.compare(&mut buffer, &call, b"data")?;
    }
    Ok(())
}

/// Fixed blocks without data: one at the zone's end, others before blocks of
/// each kind; each call that takes a pointer, by every offset that there is.
fn pointers_of_no_data(differ: &mut Differ) -> Outcome {
    let empty = || Item::Fixed(vec![]);
    let page = Page { name: 5, dirty: false, lock: false, stamp: 0, data: vec![3; 4] };
    let others = [
        Item::Relocatable(16, vec![1; 4]),
        Item::Free(12),
        Item::Page(page),
        Item::Fixed(vec![2; 4]),
        empty(),
    ];
    let items: Vec<Item> = others.into_iter().flat_map(|item| [empty(), item]).collect();
    let length = 20 + items.iter().map(Item::size).sum::<usize>();
    let zone = Picture { length, m: 1, chain: vec![], clock: 0, items }.encode();
    for pointer in 0..zone.len() as u32 + 4 {
        let block = Target::Pointer(pointer);
        let stretch = |offset, count| Stretch { block, offset, count };
        for call in [
            Call::Size(block),
            Call::Read(stretch(0, 0)),
            Call::Read(stretch(0, 1)),
            Call::Read(stretch(1, 0)),
            Call::Write(stretch(0, 0)),
            Call::Write(stretch(0, 1)),
            Call::View(stretch(0, 0)),
            Call::View(stretch(0, 4)),
            Call::FreePointer(pointer),
        ] {
            differ.compare(&mut zone.clone(), &call, b"data")?;
        }
    }
    Ok(())
}

/// A walker from bkFst to L and one step more.
fn walks(differ: &mut Differ, count: u32) -> Outcome {
    for _ in 0..count {
        let zone = zones::a_zone(&mut differ.random, 30);
        let mut walker = zone::numbers(zone::Walker::start(&zone)).1;
        loop {
            let from = walker.offset;
            differ.compare(&mut zone.clone(), &Call::WalkerStep(from), &[])?;
            if walker.advance(&zone).is_err() || walker.offset == from {
                break;
            }
        }
    }
    Ok(())
}

/// Buffers of no byte and more, of anything.
fn noise(differ: &mut Differ, count: u32) -> Outcome {
    for round in 0..count {
        let length = if round < 64 { round } else { differ.random.below(80) };
        let buffer = zones::noise(&mut differ.random, length);
        each_call(differ, &buffer)?;
    }
    Ok(())
}

/// A half of the sizes that a free block can have, each by the formula and by the
/// limits of one of some mills; the sizes about each limit by that mill's.
fn half_of_the_sizes(differ: &mut Differ, half: usize, trace: bool) -> Outcome {
    let mut mills = vec![limits::powers_of_two()];
    mills.extend((1..MILLS).map(|_| limits::a_mill(&mut differ.random, &[])));
    let counts = &mut differ.tally.strata;
    // only its first bytes are ever written
    let mut zone = vec![0; zone::LENGTH_LIMIT];
    let mut note = |length, limits: Option<&limits::Limits>| {
        if trace {
            eprintln!("sizes: census of one free block in a zone of {length} bytes by {limits:?}");
        }
        let stratum = strata::of_length(&mut zone, length, limits)?;
        counts[usize::from(limits.is_some())][stratum] += 1;
        Ok::<(), String>(())
    };
    for (length, mill) in strata::lengths(half).zip(mills.iter().cycle()) {
        note(length, None)?;
        note(length, Some(mill))?;
    }
    for mill in &mills {
        for length in strata::lengths_about(mill) {
            note(length, Some(mill))?;
        }
    }
    Ok(())
}

/// A census by limits of every kind, on zones as they are and with a rule broken.
fn mills(differ: &mut Differ, count: u32) -> Outcome {
    for _ in 0..count {
        let zone = zones::a_zone(&mut differ.random, 30);
        let mut broken = zone.clone();
        zones::break_a_rule(&mut differ.random, &mut broken);
        for mut zone in [zone, broken] {
            let words = limits::free_words(&zone);
            for lent in limits::each_kind(&mut differ.random, &words) {
                differ.compare(&mut zone, &Call::Census, &lent)?;
            }
        }
    }
    Ok(())
}

fn everything(differ: &mut Differ) -> Outcome {
    noise(differ, 6_000)?;
    lists(differ, 1_000, 150, 4, 40)?;
    lists(differ, 150, 300, 40, 600)?;
    lists(differ, 24, 250, 600, 16_384)?;
    // the longest zones, in buffers that go on behind them
    lists(differ, 4, 40, 262_140, 262_144)?;
    zones_at_random(differ, 15_000)?;
    pitted_zones(differ, 15_000)?;
    full_zones(differ, 15_000, zones::a_zone_without_free_master)?;
    full_zones(differ, 100, zones::a_zone_of_all_masters)?;
    walks(differ, 3_000)?;
    mills(differ, 600)?;
    long_stretches(differ, 40)?;
    the_largest_fixed_block(differ)?;
    pointers_of_no_data(differ)?;
    reached_zones(differ, 120, 12, 1_000)?;
    reached_zones(differ, 12, 6, 16_384)?;
    reached_zones(differ, 3, 4, 262_144)?;
    library_pages::everything(differ)
}

fn print(tally: &Tally) {
    println!("calls compared: done, refused by number (a check's 1 is its no)");
    for (name, answers) in NAMES.iter().zip(&tally.answers) {
        let refused = (1..NUMBERS).filter(|&number| answers[number] > 0);
        let refused: Vec<String> =
            refused.map(|number| format!("{number}: {}", answers[number])).collect();
        let all: u64 = answers.iter().sum();
        println!("  {name:<20} {all:>7}: {:>7}, {}", answers[0], refused.join(", "));
    }
    println!(
        "  read or written, {LONG} bytes and more: {} by handle, {} by pointer, {} by name",
        tally.long_by_handle, tally.long_by_pointer, tally.long_by_name
    );
    println!("  rosters of blocks that do not stand by rising handle: {}", tally.rosters_apart);
    println!("  refused 1 for a fixed block's second word: {}", tally.second_words);
    for (call, counts) in BY_POINTER.iter().zip(tally.pointers) {
        for (way, count) in fixed_ways::WAYS.iter().zip(counts) {
            println!("  {} by {way}: {count}", NAMES[*call]);
        }
    }
    for (way, count) in holes::WAYS.iter().zip(tally.holes) {
        println!("  {way}: {count}");
    }
    for (way, count) in pool::WAYS.iter().zip(tally.pool) {
        println!("  {way}: {count}");
    }
    for (way, count) in tally.pages.told() {
        println!("  {way}: {count}");
    }
    for (way, count) in limit_ways::WAYS.iter().zip(tally.limits) {
        println!("  {way}: {count}");
    }
    for (by, counts) in ["the formula", "a mill's limits"].iter().zip(&tally.strata) {
        let sizes: u64 = counts.iter().sum();
        let strata = counts.iter().filter(|&&count| count > 0).count();
        println!("  sizes of a free block, each by its own census, by {by}: {sizes}, in {strata} strata");
    }
}

/// Without them the roster's order, the choice between holes, the pool of
/// masters that grows, a stratum's formula, pages, where a fixed block's data
/// start, or a mill's limits, would not have been compared.
fn never_met(tally: &Tally) -> Vec<&'static str> {
    let mut never = ways::never_met(holes::WAYS, &tally.holes);
    never.extend(ways::never_met(pool::WAYS, &tally.pool));
    never.extend(tally.pages.never_met());
    never.extend(ways::never_met(limit_ways::WAYS, &tally.limits));
    if tally.rosters_apart == 0 {
        never.push("rosters of blocks that do not stand by rising handle");
    }
    if tally.second_words == 0 {
        never.push("zones refused for a fixed block's second word");
    }
    if tally.pointers.iter().flatten().any(|&count| count == 0) {
        never.push("one of the calls by a pointer of a fixed block without data");
    }
    // a free block has at least 2 words, so stratum 0 has none
    let [by_formula, by_mills] = &tally.strata;
    if by_formula[1..].contains(&0) {
        never.push("one of the strata 1 to 18");
    }
    if by_mills.contains(&0) {
        never.push("one of the strata by a mill's limits");
    }
    never
}

/// All of it from one seed, and half of the sizes, which need none.
fn from_seed(seed: u64, half: usize, trace: bool) -> Result<Tally, String> {
    let mut differ = Differ::new(seed, trace);
    half_of_the_sizes(&mut differ, half, trace)?;
    everything(&mut differ)?;
    Ok(differ.tally)
}

/// Both seeds, side by side; one after the other when the calls are traced.
fn both(seeds: [u64; 2], trace: bool) -> [Result<Tally, String>; 2] {
    let parts = [(seeds[0], 0), (seeds[1], 1)];
    if trace {
        return parts.map(|(seed, half)| from_seed(seed, half, true));
    }
    let running = parts.map(|(seed, half)| thread::spawn(move || from_seed(seed, half, false)));
    running.map(|one| one.join().unwrap_or_else(|_| Err("the comparison itself broke down".into())))
}

fn main() -> ExitCode {
    let arguments: Vec<String> = std::env::args().skip(1).collect();
    let trace = arguments.iter().any(|text| text == "--trace");
    let given = arguments.iter().find_map(|text| text.parse().ok());
    let fresh = given.unwrap_or_else(random::fresh_seed);
    println!("fresh seed {fresh}");
    let mut tally = Tally::default();
    let mut status = ExitCode::SUCCESS;
    for outcome in both([FIXED_SEED, fresh], trace) {
        match outcome {
            Ok(one) => tally.add(&one),
            Err(story) => {
                println!("{story}");
                status = ExitCode::FAILURE;
            }
        }
    }
    if status == ExitCode::SUCCESS {
        print(&tally);
        let never = never_met(&tally);
        if !never.is_empty() {
            println!("never met: {}", never.join("; "));
            return ExitCode::FAILURE;
        }
        println!("the archive and the Rust implementation agree");
    }
    status
}
