//! Program zone-run: "65,536 zero bytes as buffer; standard input in 16-byte
//! records".

mod lines;
mod records;
#[allow(dead_code)]
mod zone;

use std::process::ExitCode;

fn main() -> ExitCode {
    let mut buffer = vec![0; records::BUFFER];
    lines::run_standard(|record| records::carry_out(&mut buffer, record))
}
