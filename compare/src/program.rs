//! Runs the program that is compared, and the Rust implementation, on a list.

use crate::{lines, records};
use std::io::{Read, Write};
use std::path::Path;
use std::process::{Child, Command, Stdio};
use std::sync::mpsc;
use std::thread;
use std::time::Duration;

/// Longer than any list takes; a program that hangs is stopped then.
const PATIENCE: Duration = Duration::from_secs(10);

/// Between the first pieces of an input there is a wait, so that the program
/// has read one before the next is there.
const WAITS: usize = 24;

/// What a program wrote, and how it ended if not as it should.
#[derive(PartialEq, Eq)]
pub struct Output {
    pub bytes: Vec<u8>,
    pub trouble: Option<String>,
}

impl Output {
    fn trouble(text: String) -> Output {
        Output { bytes: Vec::new(), trouble: Some(text) }
    }

    pub fn lines(&self) -> Vec<&[u8]> {
        self.bytes.split_inclusive(|&byte| byte == b'\n').collect()
    }
}

/// What the Rust implementation prints.
pub fn expected(list: &[u8]) -> Output {
    let mut buffer = vec![0; records::BUFFER];
    let mut bytes = Vec::new();
    let end = lines::run(list, &mut bytes, |record| records::carry_out(&mut buffer, record));
    Output { bytes, trouble: end.err().map(|error| error.to_string()) }
}

/// What the program prints. `piece` is how many bytes are written to it at
/// once, so that it meets short reads.
pub fn run(program: &Path, list: &[u8], piece: usize) -> Output {
    let spawned = Command::new(program)
        .stdin(Stdio::piped())
        .stdout(Stdio::piped())
        .stderr(Stdio::null())
        .spawn();
    match spawned {
        Ok(mut child) => feed(&mut child, list, piece),
        Err(error) => Output::trouble(format!("cannot be started: {error}")),
    }
}

fn feed(child: &mut Child, list: &[u8], piece: usize) -> Output {
    let (Some(mut input), Some(mut output)) = (child.stdin.take(), child.stdout.take()) else {
        return Output::trouble("has no standard input and output".into());
    };
    let (send, receive) = mpsc::channel();
    thread::scope(|scope| {
        scope.spawn(move || {
            // A program that ended early closed its input: its output tells.
            for (i, part) in list.chunks(piece).enumerate() {
                if input.write_all(part).is_err() {
                    break;
                }
                if piece < list.len() && i < WAITS {
                    thread::sleep(Duration::from_millis(1));
                }
            }
        });
        scope.spawn(move || {
            let mut bytes = Vec::new();
            let _ = output.read_to_end(&mut bytes);
            let _ = send.send(bytes);
        });
        let bytes = receive.recv_timeout(PATIENCE);
        if bytes.is_err() {
            let _ = child.kill();
        }
        finish(child, bytes.ok())
    })
}

fn finish(child: &mut Child, bytes: Option<Vec<u8>>) -> Output {
    let trouble = match (child.wait(), &bytes) {
        (_, None) => Some(format!("did not end within {} seconds", PATIENCE.as_secs())),
        (Ok(status), _) if status.success() => None,
        (Ok(status), _) => Some(format!("ended with {status}")),
        (Err(error), _) => Some(error.to_string()),
    };
    Output { bytes: bytes.unwrap_or_default(), trouble }
}

/// The first line in which two outputs differ, counted from 0. Outputs alike
/// of which one ended badly differ in the line after the last.
pub fn first_difference(one: &Output, other: &Output) -> Option<usize> {
    if one == other {
        return None;
    }
    let (ours, theirs) = (one.lines(), other.lines());
    let same = ours.iter().zip(&theirs).take_while(|(a, b)| a == b).count();
    Some(same)
}
