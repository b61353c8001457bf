//! Makes the calls of the vectors with the implementation in Rust and holds every answer and every byte against the files.
//! Usage: check FILE..

#[allow(dead_code)]
#[path = "../compare/src/zone.rs"]
mod zone;

use std::process::exit;
use zone::{numbers, Answer, Stretch, Target, Walker};

/// Runs of so many equal bytes are written as runs.
const RUN: usize = 32;

fn hex(bytes: &[u8]) -> String {
    if bytes.is_empty() {
        return "-".to_string();
    }
    let runs = bytes.chunk_by(|a, b| a == b);
    runs.map(|run| match run.len() {
        length if length < RUN => format!("{:02X}", run[0]).repeat(length),
        length => format!("{:02X}*{length}.", run[0]),
    })
    .collect()
}

fn unhex(mut word: &str) -> Vec<u8> {
    let mut bytes = Vec::new();
    while !word.is_empty() && word != "-" {
        let byte = u8::from_str_radix(&word[..2], 16).expect("hexadecimal bytes");
        word = &word[2..];
        let mut times = 1;
        if let Some(rest) = word.strip_prefix('*') {
            let (count, later) = rest.split_once('.').expect("a run is 'HH*COUNT.'");
            (times, word) = (number(count) as usize, later);
        }
        bytes.resize(bytes.len() + times, byte);
    }
    bytes
}

fn number(word: &str) -> u32 {
    word.parse().expect("a decimal number of 32 bits")
}

fn target(words: &[&str]) -> Target {
    match words[0] {
        "handle" => Target::Handle(number(words[1])),
        "pointer" => Target::Pointer(number(words[1])),
        "name" => Target::Name(number(words[1])),
        other => panic!("no kind of block: {other}"),
    }
}

fn stretch(words: &[&str]) -> Stretch {
    Stretch { block: target(words), offset: number(words[2]), count: number(words[3]) }
}

/// The line for a call that answers one value, 0 where none is named.
fn one(answer: Answer<u32>) -> Vec<String> {
    let (refusal, value) = numbers(answer);
    vec![format!("answer {refusal} {value}")]
}

fn none(answer: Answer<()>) -> Vec<String> {
    one(answer.map(|()| 0))
}

fn with_second(answer: String, given: &[u8], second: &[u8]) -> Vec<String> {
    let second = if second == given { "same".to_string() } else { hex(second) };
    vec![answer, format!("second {second}")]
}

/// The lines that follow a call, but for the zone's bytes.
fn carry_out(buffer: &mut [u8], words: &[&str]) -> Vec<String> {
    let argument = |i: usize| number(words[i]);
    match words[0] {
        "initialize" => none(zone::initialize(buffer, argument(1), argument(2))),
        "allocate_relocatable" => one(zone::allocate_relocatable(buffer, argument(1))),
        "allocate_fixed" => one(zone::allocate_fixed(buffer, argument(1))),
        "free_handle" => none(zone::free_handle(buffer, argument(1))),
        "free_pointer" => none(zone::free_pointer(buffer, argument(1))),
        "resize" => none(zone::resize(buffer, argument(1), argument(2))),
        "compact" => one(zone::compact(buffer)),
        "enlarge" => none(zone::enlarge(buffer, argument(1))),
        "shrink" => one(zone::shrink(buffer, argument(1))),
        "create_page" => one(zone::create_page(buffer, argument(1), argument(2))),
        "use_page" => one(zone::use_page(buffer, argument(1))),
        "set_dirty" => none(zone::set_dirty(buffer, argument(1))),
        "clear_dirty" => none(zone::clear_dirty(buffer, argument(1))),
        "set_lock" => none(zone::set_lock(buffer, argument(1))),
        "clear_lock" => none(zone::clear_lock(buffer, argument(1))),
        "drop_page" => none(zone::drop_page(buffer, argument(1))),
        "size" => one(zone::size(buffer, target(&words[1..]))),
        "length" => one(zone::length(buffer)),
        "read" | "write" | "roster" => call_with_second(buffer, words),
        _ => tell(buffer, words),
    }
}

fn call_with_second(buffer: &mut [u8], words: &[&str]) -> Vec<String> {
    let given = unhex(words[words.len() - 1]);
    let mut second = given.clone();
    let answer = match words[0] {
        "read" => format!("answer {}", numbers(zone::read(buffer, stretch(&words[1..]), &mut second)).0),
        "write" => format!("answer {}", numbers(zone::write(buffer, stretch(&words[1..]), &second)).0),
        _ => one(zone::roster(buffer, &mut second)).remove(0),
    };
    with_second(answer, &given, &second)
}

fn tell(buffer: &[u8], words: &[&str]) -> Vec<String> {
    match words[0] {
        "view" => {
            let part = zone::view(buffer, stretch(&words[1..]));
            vec![format!("view {} {}", part.as_ptr() as usize - buffer.as_ptr() as usize, part.len())]
        }
        "sum" => {
            let (refusal, (total, largest)) = numbers(zone::sum(buffer));
            vec![format!("answer {refusal} {total} {largest}")]
        }
        "check" => {
            let (yes, count) = zone::check(buffer);
            vec![format!("answer 0 {} {count}", u32::from(yes))]
        }
        "census" => {
            let limits = words.get(1).map_or(vec![], |word| unhex(word));
            let (refusal, counts) = numbers(zone::census(buffer, &limits));
            let counts: String = counts.iter().map(|count| format!(" {count}")).collect();
            vec![format!("answer {refusal}{counts}")]
        }
        "walker_start" => vec![format!("walker {}", numbers(Walker::start(buffer)).1.offset)],
        "walker_step" => {
            let (next, answer) = Walker { offset: number(words[1]) }.step(buffer);
            let (refusal, step) = numbers(answer);
            vec![format!("answer {refusal} {} {} {}", step.kind, step.offset, step.size), format!("walker {}", next.offset)]
        }
        other => panic!("no call of this name: {other}"),
    }
}

/// Answers how many calls the file has.
fn check_file(path: &str) -> usize {
    let text = std::fs::read_to_string(path).unwrap_or_else(|error| panic!("{path}: {error}"));
    let mut lines = text.lines().enumerate();
    assert_eq!(lines.next().map(|(_, line)| line), Some("nafelode-vectors 3"), "{path}");
    let (mut buffer, mut calls) = (Vec::new(), 0);
    while let Some((at, line)) = lines.next() {
        let words: Vec<&str> = line.split_whitespace().collect();
        match words.first().copied() {
            None | Some("list") => {}
            Some(word) if word.starts_with('#') => {}
            Some("buffer") => buffer = vec![number(words[2]) as u8; number(words[1]) as usize],
            Some("set") => {
                let (at, bytes) = (number(words[1]) as usize, unhex(words[2]));
                buffer[at..at + bytes.len()].copy_from_slice(&bytes);
            }
            Some("call") => {
                let before = buffer.clone();
                let mut here = carry_out(&mut buffer, &words[1..]);
                here.push(format!("zone {}", if buffer == before { "same".to_string() } else { hex(&buffer) }));
                let there: Vec<String> = lines.by_ref().take(here.len()).map(|(_, line)| line.to_string()).collect();
                if here != there {
                    println!("{path}:{}: {line}\n  the file: {there:?}\n  in Rust:  {here:?}", at + 1);
                    exit(1);
                }
                calls += 1;
            }
            Some(_) => panic!("{path}:{}: not understood: {line}", at + 1),
        }
    }
    calls
}

fn main() {
    let calls: usize = std::env::args().skip(1).map(|path| check_file(&path)).sum();
    assert!(calls > 0, "no call to check");
    println!("in Rust: {calls} calls, every answer and byte as in the vectors");
}
