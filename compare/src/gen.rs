//! Writes a list of zone-run records: `gen SEED COUNT [--counts]`. With
//! `--counts` the answers' refusal numbers, the records skipped and the ways of
//! `holes` and `pool` are counted on standard error.

#[allow(dead_code)]
mod coverage;
#[allow(dead_code)]
mod fixed_ways;
mod generator;
#[allow(dead_code)]
mod holes;
#[allow(dead_code)]
mod pool;
mod random;
mod records;
#[allow(dead_code)]
mod ways;
#[allow(dead_code)]
mod zone;

use std::io::{self, Write};
use std::process::ExitCode;

fn words(counts: &[u64]) -> String {
    counts.iter().map(u64::to_string).collect::<Vec<String>>().join(" ")
}

fn main() -> ExitCode {
    let arguments: Vec<String> = std::env::args().skip(1).collect();
    let numbers: Vec<u64> = arguments.iter().filter_map(|text| text.parse().ok()).collect();
    let [seed, count] = numbers[..] else {
        eprintln!("usage: gen SEED COUNT [--counts]");
        return ExitCode::FAILURE;
    };
    let (list, coverage) = generator::list(seed, count);
    if io::stdout().lock().write_all(&list).is_err() {
        return ExitCode::FAILURE;
    }
    if arguments.iter().any(|text| text == "--counts") {
        let (refusals, skips) = (words(&coverage.refusals()), coverage.skips);
        let (holes, pool) = (words(&coverage.holes()), words(&coverage.pool()));
        eprintln!("{refusals} skip {skips} holes {holes} pool {pool}");
    }
    ExitCode::SUCCESS
}
