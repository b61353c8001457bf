//! The loop of zone-run: whole records in, one line each out.

use std::io::{self, BufReader, BufWriter, ErrorKind, Read, Write};
use std::process::ExitCode;

/// The next whole record; "a short last record is ignored".
fn next_record(input: &mut impl Read) -> io::Result<Option<[u8; 16]>> {
    let mut record = [0; 16];
    match input.read_exact(&mut record) {
        Ok(()) => Ok(Some(record)),
        Err(error) if error.kind() == ErrorKind::UnexpectedEof => Ok(None),
        Err(error) => Err(error),
    }
}

/// "One line each: refusal number (0 if done), a space, the value", or "the
/// line `skip`".
pub fn run(
    input: impl Read,
    output: impl Write,
    mut carry_out: impl FnMut(&[u8; 16]) -> Option<(u32, u32)>,
) -> io::Result<()> {
    let mut input = BufReader::with_capacity(1 << 16, input);
    let mut output = BufWriter::with_capacity(1 << 16, output);
    while let Some(record) = next_record(&mut input)? {
        match carry_out(&record) {
            Some((refusal, value)) => writeln!(output, "{refusal} {value}")?,
            None => output.write_all(b"skip\n")?,
        }
    }
    output.flush()
}

/// From standard input to standard output; an error of either ends the run.
pub fn run_standard(carry_out: impl FnMut(&[u8; 16]) -> Option<(u32, u32)>) -> ExitCode {
    match run(io::stdin().lock(), io::stdout().lock(), carry_out) {
        Ok(()) => ExitCode::SUCCESS,
        Err(_) => ExitCode::FAILURE,
    }
}
