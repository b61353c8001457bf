//! Times of calls: both sides in turn, every call on its own, the middle of
//! several rounds for each call. A pause of the machine hits few of the times,
//! so the middle leaves it out.

use crate::calls::Call;
use crate::sides::{archive, rust, Side};
use crate::workloads::Row;
use std::hint::black_box;
use std::time::Instant;

const ROUNDS: usize = 9;

/// Calls on a zone: each on the zone as it is at first, or one after the other.
pub struct Work<'a> {
    pub zone: &'a [u8],
    pub calls: &'a [Call],
    /// what they are lent beside the zone
    pub second: &'a [u8],
    pub each_on_a_copy: bool,
}

impl<'a> Work<'a> {
    pub fn of(row: &'a Row) -> Work<'a> {
        let Row { calls, zone, second, .. } = row;
        Work { zone, calls, second, each_on_a_copy: true }
    }
}

/// Nanoseconds per call of the two sides.
#[derive(Clone, Copy)]
pub struct Times {
    pub archive: f64,
    pub rust: f64,
}

/// One side's round: the time of each call, all answers in one number.
struct Round {
    times: Vec<f64>,
    answers: u32,
}

/// What a pair of looks at the clock costs.
pub fn clock_nanoseconds() -> f64 {
    middle(&mut (0..201).map(|_| Instant::now().elapsed().as_nanos() as f64).collect::<Vec<f64>>())
}

pub fn middle(times: &mut [f64]) -> f64 {
    times.sort_by(f64::total_cmp);
    times[times.len() / 2]
}

/// Whether a call may change the zone, so that the next needs a new copy.
pub fn changes(call: &Call) -> bool {
    use Call::*;
    let only_looks = match call {
        Size(_) | Read(_) | View(_) | Sum | Check | Length | Roster | Census => true,
        WalkerStart | WalkerStep(_) => true,
        _ => false,
    };
    !only_looks
}

fn round(work: &Work, side: Side, buffer: &mut [u8], second: &mut [u8]) -> Round {
    buffer.copy_from_slice(work.zone);
    // reads fill it and writes take from it, so both sides start alike
    second.copy_from_slice(work.second);
    let mut round = Round { times: Vec::with_capacity(work.calls.len()), answers: 0 };
    for call in work.calls {
        if work.each_on_a_copy && changes(call) {
            buffer.copy_from_slice(work.zone);
        }
        let start = Instant::now();
        let answer = side(black_box(buffer), call, second);
        round.times.push(start.elapsed().as_nanos() as f64);
        round.answers = round.answers.rotate_left(1) ^ answer;
    }
    round
}

/// The mean over the calls of the middle over the rounds; the first round is
/// for warming up.
fn settle(rounds: &[Round], clock: f64) -> f64 {
    let calls = rounds[0].times.len();
    let of_call = |i: usize| {
        let mut times: Vec<f64> = rounds[1..].iter().map(|round| round.times[i]).collect();
        middle(&mut times) - clock
    };
    (0..calls).map(of_call).sum::<f64>() / calls as f64
}

/// Times both sides; they must answer the same and leave the same bytes in
/// zone and second buffer. They share both buffers, so that neither finds them
/// further away than the other.
pub fn time(work: &Work) -> Times {
    let (mut buffer, mut left) = (work.zone.to_vec(), work.zone.to_vec());
    let mut second = work.second.to_vec();
    let mut second_left = second.clone();
    let mut rounds = [Vec::new(), Vec::new()];
    let sides: [Side; 2] = [archive, rust];
    for i in 0..=ROUNDS {
        let (first, then) = (i % 2, 1 - i % 2);
        rounds[first].push(round(work, sides[first], &mut buffer, &mut second));
        left.copy_from_slice(&buffer);
        second_left.copy_from_slice(&second);
        rounds[then].push(round(work, sides[then], &mut buffer, &mut second));
        assert!(rounds[0][i].answers == rounds[1][i].answers, "the two sides answer differently");
        assert!(left == buffer && second_left == second, "the two sides leave different bytes");
    }
    let clock = clock_nanoseconds();
    Times { archive: settle(&rounds[0], clock), rust: settle(&rounds[1], clock) }
}
