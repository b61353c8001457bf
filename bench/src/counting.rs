//! Calls for callgrind to count: it collects inside `counted_call` alone, and
//! writes what it collected where `end_of_row` ends. A line is printed for each
//! of its parts, in their order.

use crate::sides::{archive, rust, Side};
use crate::timing::{changes, Work};
use std::hint::black_box;

#[no_mangle]
#[inline(never)]
pub fn counted_call(side: Side, buffer: &mut [u8], work: &Work, i: usize, second: &mut [u8]) {
    black_box(side(black_box(buffer), &work.calls[i], second));
}

#[no_mangle]
#[inline(never)]
pub fn end_of_row() {
    black_box(());
}

/// A row of a zone's table, on either side.
pub fn count(zone: &str, row: &str, work: &Work) {
    for (name, side) in [("proved", archive as Side), ("Rust", rust)] {
        let (mut buffer, mut second) = (work.zone.to_vec(), work.second.to_vec());
        for (i, call) in work.calls.iter().enumerate() {
            if work.each_on_a_copy && changes(call) {
                buffer.copy_from_slice(work.zone);
            }
            counted_call(side, &mut buffer, work, i, &mut second);
        }
        println!("{zone}\t{row}\t{name}\t{}", work.calls.len());
        end_of_row();
    }
}
