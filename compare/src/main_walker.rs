//! Compares a program that walks with a walker which is lent, from step to
//! step, with the Rust implementation: `walker FOLDER PROGRAM [FRESH_SEED]`.
//! The folder has the program's stored input and output.

#[allow(dead_code)]
mod calls;
#[allow(dead_code)]
mod lines;
#[allow(dead_code)]
mod model;
#[allow(dead_code)]
mod page_zones;
#[allow(dead_code)]
mod program;
#[allow(dead_code)]
mod random;
mod records;
#[allow(dead_code)]
mod rules;
#[allow(dead_code)]
mod zone;
#[allow(dead_code)]
mod zones;

use random::Random;
use std::fs;
use std::path::Path;
use std::process::ExitCode;
use zone::Walker;

const FIXED_SEED: u64 = 1;
const ZONES: u32 = 300;

/// Where no block starts.
const ELSEWHERE: u32 = 17;

/// Moves the walker, and tells the step: refusal number, type, offset, size,
/// and where the walker is then.
fn step(walker: &mut Walker, zone: &[u8]) -> String {
    let (refusal, block) = zone::numbers(walker.advance(zone));
    format!("{refusal} {} {} {} {}\n", block.kind, block.offset, block.size, walker.offset)
}

/// What the program prints: a step from elsewhere, then a walk from the start
/// until a step leaves the walker where it is.
fn expected(zone: &[u8]) -> String {
    let mut text = step(&mut Walker { offset: ELSEWHERE }, zone);
    let mut walker = zone::numbers(Walker::start(zone)).1;
    loop {
        let from = walker;
        text += &step(&mut walker, zone);
        if walker == from {
            return text;
        }
    }
}

/// A zone, with pages or without, a damaged one, one with a rule broken, or noise.
fn a_buffer(random: &mut Random) -> Vec<u8> {
    let most = random.pick(&[0, 4, 12, 60]);
    let mut buffer = zones::a_zone(random, most);
    match random.below(10) {
        3..=5 => buffer = page_zones::a_zone_of_pages(random),
        6 => {
            buffer = page_zones::a_zone_of_pages(random);
            page_zones::break_a_page(random, &mut buffer);
        }
        0 => zones::damage(random, &mut buffer),
        1 => zones::break_a_rule(random, &mut buffer),
        2 => buffer = zones::noise(random, most),
        _ => {}
    }
    buffer
}

/// The first buffer on which the program differs is told, with both outputs.
fn walks(program: &Path, seed: u64) -> Result<usize, String> {
    let mut random = Random::new(seed);
    let mut steps = 0;
    for number in 0..ZONES {
        let buffer = a_buffer(&mut random);
        let (wanted, got) = (expected(&buffer), program::run(program, &buffer, 4_099));
        if got.trouble.is_some() || got.bytes != wanted.as_bytes() {
            let told = String::from_utf8_lossy(&got.bytes).to_string();
            return Err(format!("seed {seed}, zone {number}: {buffer:02X?}\nwanted\n{wanted}got\n{told}"));
        }
        steps += wanted.lines().count();
    }
    Ok(steps)
}

fn compare(folder: &Path, program: &Path, fresh: u64) -> Result<usize, String> {
    let read = |name: &str| fs::read(folder.join(name)).map_err(|error| format!("{name}: {error}"));
    if expected(&read("stdin")?).as_bytes() != read("stdout")? {
        return Err("the stored output is not that of the Rust implementation".into());
    }
    Ok(walks(program, FIXED_SEED)? + walks(program, fresh)?)
}

fn main() -> ExitCode {
    let arguments: Vec<String> = std::env::args().skip(1).collect();
    let (folder, program, seed) = match &arguments[..] {
        [folder, program] => (folder, program, Some(random::fresh_seed())),
        [folder, program, seed] => (folder, program, seed.parse().ok()),
        _ => (&String::new(), &String::new(), None),
    };
    let Some(seed) = seed else {
        eprintln!("usage: walker FOLDER PROGRAM [FRESH_SEED]");
        return ExitCode::FAILURE;
    };
    println!("fresh seed {seed}");
    match compare(Path::new(folder), Path::new(program), seed) {
        Ok(steps) => println!("{steps} steps by a lent walker: the program and the Rust implementation agree"),
        Err(difference) => {
            println!("{difference}\nthe program and the Rust implementation differ");
            return ExitCode::FAILURE;
        }
    }
    ExitCode::SUCCESS
}
