// Carries out calls on a buffer, over the crates' code as Rust, and prints what each answers, a bar, and the buffer's bytes. Input: lines as tools/wrong_at.py
// takes them from edits. `case` starts from a buffer of 70 bytes, each 9. A call that breaks down prints `breaks down`, and so do all after it.
use calls::Refusal;
use nafelode::Stretch;
use std::io::Read;
use std::panic::{catch_unwind, AssertUnwindSafe};

fn hex(bytes: &[u8]) -> String {
    if bytes.is_empty() {
        return "-".into();
    }
    bytes.iter().map(|byte| format!("{byte:02X}")).collect()
}

fn unhex(word: &str) -> Vec<u8> {
    let digits = if word == "-" { "" } else { word };
    (0..digits.len() / 2).map(|i| u8::from_str_radix(&digits[2 * i..2 * i + 2], 16).expect("hexadecimal")).collect()
}

/// What a call answers: its refusal number, 0 for none, and behind it what it tells, or what stands beside the refusal.
trait Said {
    fn said(self) -> String;
}

impl Said for Result<u32, Refusal> {
    fn said(self) -> String {
        self.map_or_else(|refusal| format!("{} {}", refusal.number(), refusal.beside()), |value| format!("0 {value}"))
    }
}

impl Said for Result<(), Refusal> {
    fn said(self) -> String {
        self.map(|()| 0).said()
    }
}

fn told(answer: impl Said) -> String {
    answer.said()
}

/// The refusal number alone, 0 for none.
fn number<T>(answer: &Result<T, Refusal>) -> u32 {
    answer.as_ref().map_or_else(|refusal| refusal.number(), |_| 0)
}

/// One record of zone-run, from its code and numbers.
fn record(numbers: &[u32]) -> Vec<u8> {
    let mut bytes = vec![0; 16];
    bytes[0] = numbers[0] as u8;
    for (i, number) in numbers[1..].iter().enumerate() {
        bytes[4 + 4 * i..8 + 4 * i].copy_from_slice(&number.to_be_bytes());
    }
    bytes
}

fn lines(zone: &mut [u8], input: &[u8]) -> String {
    let mut out = [0; 256];
    let printed = records::run_chunk(zone, input, &mut out);
    String::from_utf8_lossy(&out[..printed]).trim_end().replace('\n', ", ")
}

/// The block that two words name, with the offset and the count after them, 0 where there is none.
fn stretch(words: &[&str]) -> Stretch {
    let number = |i: usize| words.get(i).map_or(0, |word| word.parse().expect("a number"));
    let block = match words[1] {
        "handle" => nafelode::Target::Handle(number(2)),
        "pointer" => nafelode::Target::Pointer(number(2)),
        _ => nafelode::Target::Name(number(2)),
    };
    Stretch { block, offset: number(3), count: number(4) }
}

fn call(zone: &mut Vec<u8>, words: &[&str]) -> String {
    let n = |i: usize| -> u32 { words[i].parse().expect("a number") };
    match words[0] {
        "buffer" => {
            *zone = vec![n(2) as u8; n(1) as usize];
            String::new()
        }
        "set" => {
            let (at, bytes) = (n(1) as usize, unhex(words[2]));
            zone[at..at + bytes.len()].copy_from_slice(&bytes);
            String::new()
        }
        "initialize" => told(nafelode::initialize(zone, n(1), n(2))),
        "allocate_relocatable" => told(nafelode::allocate_relocatable(zone, n(1))),
        "allocate_fixed" => told(nafelode::allocate_fixed(zone, n(1))),
        "free_handle" => told(nafelode::free_handle(zone, n(1))),
        "free_pointer" => told(nafelode::free_pointer(zone, n(1))),
        "resize" => told(nafelode::resize(zone, n(1), n(2))),
        "size" => told(nafelode::size(zone, stretch(words).block)),
        "read" => {
            let mut out = unhex(words[5]);
            let number = number(&nafelode::read(zone, stretch(words), &mut out));
            format!("{number} {}", hex(&out))
        }
        "write" => number(&nafelode::write(zone, stretch(words), &unhex(words[5]))).to_string(),
        "view" => {
            let first = zone.as_ptr() as usize;
            let part = nafelode::view(zone, stretch(words));
            format!("{} {}", part.as_ptr() as usize - first, part.len())
        }
        "create_page" => told(nafelode::create_page(zone, n(1), n(2))),
        "use_page" => told(nafelode::use_page(zone, n(1))),
        "set_dirty" => told(nafelode::set_dirty(zone, n(1))),
        "clear_dirty" => told(nafelode::clear_dirty(zone, n(1))),
        "set_lock" => told(nafelode::set_lock(zone, n(1))),
        "clear_lock" => told(nafelode::clear_lock(zone, n(1))),
        "drop_page" => told(nafelode::drop_page(zone, n(1))),
        "compact" => told(nafelode::compact(zone)),
        "sum" => {
            let sums = nafelode::sum(zone);
            let (total, largest) = sums.map_or((0, 0), |sums| (sums.total, sums.largest));
            format!("{} {total} {largest}", number(&sums))
        }
        "check" => {
            let handles = nafelode::check(zone);
            format!("0 {} {}", u32::from(handles.is_some()), handles.unwrap_or(0))
        }
        "length" => told(nafelode::length(zone)),
        "enlarge" => told(nafelode::enlarge(zone, n(1))),
        "shrink" => told(nafelode::shrink(zone, n(1))),
        "roster" => {
            let mut out = unhex(words[1]);
            let answer = nafelode::roster(zone, &mut out);
            format!("{} {}", told(answer), hex(&out))
        }
        "census" => {
            let limits = words.get(1).map_or(vec![], |word| unhex(word));
            let census = nafelode::census(zone, &limits);
            format!("{} {}", number(&census), census.unwrap_or([0; 19]).map(|count| count.to_string()).join(" "))
        }
        "walker_start" => nafelode::Walker::start(zone).at.to_string(),
        "walker_step" => {
            let mut walker = nafelode::Walker { at: n(1) as usize };
            let step = walker.advance(zone);
            let (kind, offset, size) = step.ok().flatten().map_or((0, 0, 0), |block| (block.kind.code(), block.offset, block.size));
            format!("{} {kind} {offset} {size}, walker {}", number(&step), walker.at)
        }
        // C's, with the caller's variable before the call
        "nafelode_allocate_relocatable" => {
            let mut handle = n(2);
            let number = nafelode_c::nafelode_allocate_relocatable(zone, n(1), &mut handle);
            format!("{number} {handle}")
        }
        "nafelode_size" => {
            let mut size = 0;
            let number = nafelode_c::nafelode_size(zone, n(1), n(2), &mut size);
            format!("{number} {size}")
        }
        "nafelode_walker_step" => {
            let (mut walker, mut block_type, mut offset, mut size) = (n(1), 0, 0, 0);
            let number = nafelode_c::nafelode_walker_step(zone, &mut walker, &mut block_type, &mut offset, &mut size);
            format!("{number} {block_type} {offset} {size}, walker {walker}")
        }
        "record" => lines(zone, &record(&(1..words.len()).map(n).collect::<Vec<u32>>())),
        "raw" => lines(zone, &unhex(words[1])),
        // the bytes 0, 1, 2, .. moved
        "slide" => {
            for (i, byte) in zone.iter_mut().enumerate() {
                *byte = i as u8;
            }
            resize::relocate::slide(zone, n(1) as usize, n(2) as usize, n(3) as usize);
            String::new()
        }
        _ => "no such call".into(),
    }
}

fn main() {
    std::panic::set_hook(Box::new(|_| {}));
    let mut text = String::new();
    std::io::stdin().read_to_string(&mut text).expect("text");
    let (mut zone, mut broken) = (Vec::new(), false);
    for line in text.lines() {
        if line == "case" {
            (zone, broken) = (vec![9; 70], false);
            continue;
        }
        let words: Vec<&str> = line.split(' ').collect();
        let answer = catch_unwind(AssertUnwindSafe(|| if broken { panic!() } else { call(&mut zone, &words) }));
        broken = answer.is_err();
        println!("{} | {}", answer.unwrap_or("breaks down".into()), hex(&zone));
    }
}
