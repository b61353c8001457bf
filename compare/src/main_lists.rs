//! Compares a zone-run with the Rust implementation, line by line:
//! `lists FOLDER PROGRAM [FRESH_SEED]`. Failing lists are cut down and kept in
//! the folder.

#[allow(dead_code)]
mod coverage;
mod cut;
mod failure;
#[allow(dead_code)]
mod fixed_ways;
mod generator;
#[allow(dead_code)]
mod holes;
#[allow(dead_code)]
mod lines;
#[allow(dead_code)]
mod pool;
mod program;
mod random;
mod records;
mod rows;
mod text;
#[allow(dead_code)]
mod ways;
#[allow(dead_code)]
mod zone;

use coverage::Coverage;
use program::{expected, first_difference, run};
use std::path::{Path, PathBuf};
use std::process::ExitCode;
use std::sync::atomic::{AtomicBool, AtomicU64, Ordering};
use std::sync::Mutex;
use std::thread;

const SEEDS: u64 = 200;
const RECORDS: u64 = 2_000;

/// Lengths of input about those at which a reader's buffer ends.
const INPUT_LENGTHS: [usize; 14] =
    [0, 1, 15, 16, 17, 4_096, 65_520, 65_535, 65_536, 65_537, 65_551, 65_552, 131_072, 200_007];

/// Records of the long list: more than 34 chunks of 4,096.
const LONG: u64 = 140_000;

/// A chunk of records, which zone-run reads at once.
const CHUNK: usize = 4_096;

struct Comparison {
    program: PathBuf,
    folder: PathBuf,
    failed: AtomicBool,
}

impl Comparison {
    /// Compares one list; a failing one is told and kept.
    fn compare(&self, name: &str, list: &[u8], piece: usize) -> bool {
        let got = run(&self.program, list, piece);
        if first_difference(&expected(list), &got).is_none() {
            return true;
        }
        self.failed.store(true, Ordering::Relaxed);
        println!("{}", failure::keep(&self.folder, name, &self.program, list, piece));
        false
    }

    fn fail(&self, message: &str) {
        self.failed.store(true, Ordering::Relaxed);
        println!("{message}");
    }

    /// The rig's rows: both sides against the lines written out.
    fn rows(&self) {
        let rows = match rows::rows(include_str!("../rows.txt")) {
            Ok(rows) => rows,
            Err(error) => return self.fail(&format!("rows.txt: {error}")),
        };
        for row in &rows {
            if expected(&row.list).bytes != row.lines.as_bytes() {
                self.fail(&format!("{}: the Rust implementation differs from rows.txt", row.name));
            }
            self.compare(&row.name, &row.list, row.list.len().max(1));
        }
        println!("{} small lists with their lines written out", rows.len());
    }

    /// Inputs of lengths about a reader's buffer, written in small pieces.
    fn input_lengths(&self) {
        let longest = INPUT_LENGTHS.into_iter().max().unwrap_or(0);
        let (list, _) = generator::list(0, longest as u64 / 16 + 1);
        let agree = INPUT_LENGTHS
            .iter()
            .all(|&length| self.compare(&format!("length-{length}"), &list[..length], 1_021));
        if !agree {
            return;
        }
        println!("{} inputs of 0 to {longest} bytes, written in pieces", INPUT_LENGTHS.len());
    }

    /// One list of many chunks, with a short last record: a program that stops
    /// or loses its place after some of them differs. The list must have
    /// something to show up to its end.
    fn long_list(&self) {
        let (mut list, meets) = generator::list(SEEDS + 1, LONG);
        list.truncate(LONG as usize * records::RECORD);
        list.extend_from_slice(&[1, 0, 0, 0, 0]);
        let wanted = expected(&list);
        let lines = wanted.lines();
        let last = &lines[lines.len().saturating_sub(CHUNK)..];
        let done = last.iter().filter(|line| line.starts_with(b"0 ")).count();
        let (skips, zones) = (meets.skips, meets.initializations());
        if lines.len() as u64 != LONG || skips < 100 || zones < 100 || done < CHUNK / 2 {
            return self.fail(&format!("the long list: {skips} skipped, {zones} zones, {done} done"));
        }
        if self.compare("long", &list, 65_537) {
            println!("a list of {LONG} records: {zones} initializations, {skips} records skipped");
        }
    }

    /// The pool of masters grows until m + 8 is too large.
    fn to_the_limit(&self) -> Coverage {
        let (list, meets) = generator::masters_to_the_limit();
        if self.compare("masters-limit", &list, list.len()) {
            println!("a list of {} records, up to 8,188 masters", list.len() / records::RECORD);
        }
        meets
    }

    /// Two workers over the seeds; both stop at the first failing list. What
    /// other lists met is added.
    fn seeds(&self, others: Coverage) {
        let (next, failed) = (AtomicU64::new(1), AtomicBool::new(false));
        let covered = Mutex::new(others);
        let work = || loop {
            let seed = next.fetch_add(1, Ordering::Relaxed);
            if seed > SEEDS || failed.load(Ordering::Relaxed) {
                return;
            }
            let (list, meets) = generator::list(seed, RECORDS);
            if self.compare(&seed.to_string(), &list, list.len()) {
                covered.lock().expect("no worker panics").join(&meets);
            } else {
                failed.store(true, Ordering::Relaxed);
            }
        };
        thread::scope(|scope| {
            scope.spawn(work);
            scope.spawn(work);
        });
        let covered = covered.into_inner().expect("no worker panics");
        if failed.into_inner() {
            return;
        }
        covered.print();
        if !covered.missing().is_empty() {
            self.fail(&format!("never reached: {}", covered.missing().join("; ")));
        }
    }

    fn fresh(&self, seed: u64) {
        let (list, _) = generator::list(seed, RECORDS);
        if self.compare(&seed.to_string(), &list, list.len()) {
            println!("the list of fresh seed {seed}");
        }
    }
}

fn main() -> ExitCode {
    let arguments: Vec<String> = std::env::args().skip(1).collect();
    let (folder, program, seed) = match &arguments[..] {
        [folder, program] => (folder, program, Some(random::fresh_seed())),
        [folder, program, seed] => (folder, program, seed.parse().ok()),
        _ => (&String::new(), &String::new(), None),
    };
    let Some(seed) = seed else {
        eprintln!("usage: lists FOLDER PROGRAM [FRESH_SEED]");
        return ExitCode::FAILURE;
    };
    println!("fresh seed {seed}");
    let comparison = Comparison {
        program: Path::new(program).to_path_buf(),
        folder: Path::new(folder).to_path_buf(),
        failed: AtomicBool::new(false),
    };
    comparison.rows();
    comparison.input_lengths();
    comparison.long_list();
    comparison.fresh(seed);
    let limit = comparison.to_the_limit();
    comparison.seeds(limit);
    if comparison.failed.into_inner() {
        println!("the program and the Rust implementation differ");
        return ExitCode::FAILURE;
    }
    println!("the program and the Rust implementation agree");
    ExitCode::SUCCESS
}
