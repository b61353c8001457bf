//! What a user might do instead of a call: a handle table in C that checks
//! nothing, a plain read of the zone's bytes, a plain move of those that slide.

use crate::model::{Item, Picture};
use crate::random::Random;
use crate::timing::{clock_nanoseconds, middle};
use std::cell::RefCell;
use std::ffi::{c_int, c_void};
use std::hint::black_box;
use std::ops::Range;
use std::time::Instant;

const ROUNDS: usize = 61;
const HEADER: usize = 8;
const NONE: u32 = u32::MAX;
/// calls on a handle table that are timed together, and the bytes of a new block
const CALLS: usize = 24;
const MOST: usize = 64;

/// What is timed beside a call, by the name of its row.
pub struct Peer {
    pub call: &'static str,
    pub name: &'static str,
    pub nanoseconds: f64,
}

/// `handle_table` of handle_table.c
#[repr(C)]
struct HandleTable {
    bytes: *mut u8,
    length: u32,
    end: u32,
    masters: *mut u32,
    free_head: u32,
}

extern "C" {
    fn handle_table_compact(table: *mut HandleTable);
    fn handle_table_allocate(table: *mut HandleTable, c: u32) -> u32;
    fn handle_table_free(table: *mut HandleTable, handle: u32);
    fn handle_table_read(table: *const HandleTable, handle: u32, count: u32, into: *mut u8);
    fn handle_table_write(table: *mut HandleTable, handle: u32, count: u32, from: *const u8);
    fn plain_read(bytes: *const u8, length: usize) -> u8;
    fn memchr(bytes: *const c_void, byte: c_int, length: usize) -> *const c_void;
}

/// The buffers of a handle table, and what it says of them.
#[derive(Clone)]
struct Buffers {
    bytes: Vec<u8>,
    masters: Vec<u32>,
    end: u32,
    free_head: u32,
}

impl Buffers {
    /// The blocks and the holes of these items, with `room` bytes behind them. The first item gets
    /// handle 0, the next one 1, and so on; fixed blocks have handles, too.
    fn like(items: &[Item], room: usize) -> Buffers {
        let length = items.iter().map(|item| item.size() + HEADER).sum::<usize>() + room;
        // free handles, each with the next one
        let mut masters: Vec<u32> = (1..=items.len() as u32 + CALLS as u32).collect();
        *masters.last_mut().expect("room for calls") = NONE;
        let mut buffers = Buffers { bytes: vec![0; length], masters, end: 0, free_head: 0 };
        let mut table = buffers.lend();
        for (item, wanted) in items.iter().zip(0..) {
            // SAFETY: the buffers live on, and the table is used by nothing else.
            let handle = unsafe { handle_table_allocate(&mut table, data_size(item)) };
            assert_eq!(handle, wanted);
        }
        for (item, handle) in items.iter().zip(0..) {
            if matches!(item, Item::Free(_)) {
                // SAFETY: as above; the handle is live.
                unsafe { handle_table_free(&mut table, handle) };
            }
        }
        (buffers.end, buffers.free_head) = (table.end, table.free_head);
        buffers
    }

    fn lend(&mut self) -> HandleTable {
        HandleTable {
            bytes: self.bytes.as_mut_ptr(),
            length: self.bytes.len() as u32,
            end: self.end,
            masters: self.masters.as_mut_ptr(),
            free_head: self.free_head,
        }
    }
}

/// As many bytes as the zone's block has behind the header of 4 bytes.
fn data_size(item: &Item) -> u32 {
    item.size() as u32 - 4
}

/// The middle of some rounds, each of `works` works timed together, for one of them.
fn time(works: usize, mut prepare: impl FnMut(), mut work: impl FnMut()) -> f64 {
    let mut times = Vec::new();
    for _ in 0..ROUNDS {
        prepare();
        let start = Instant::now();
        work();
        times.push(start.elapsed().as_nanos() as f64);
    }
    (middle(&mut times) - clock_nanoseconds()) / works as f64
}

/// Runs of blocks that compacting moves, each with where it goes.
fn slides(picture: &Picture) -> Vec<(Range<usize>, usize)> {
    let mut slides: Vec<(Range<usize>, usize)> = Vec::new();
    let mut at = 16 + 4 * picture.m;
    let mut gap = 0;
    for item in &picture.items {
        let end = at + item.size();
        match item {
            Item::Free(size) => gap += size,
            Item::Fixed(_) => gap = 0,
            _ if gap == 0 => {}
            _ => match slides.last_mut() {
                Some((run, _)) if run.end == at => run.end = end,
                _ => slides.push((at..end, at - gap)),
            },
        }
        at = end;
    }
    slides
}

/// One plain read of the bytes, their sum modulo 256.
pub fn time_plain_read(bytes: &[u8]) -> f64 {
    time(1, || (), || {
        let bytes = black_box(bytes);
        // SAFETY: as many bytes are there.
        black_box(unsafe { plain_read(bytes.as_ptr(), bytes.len()) });
    })
}

/// Every peer of a zone's calls.
pub fn times(zone: &[u8], random: &mut Random) -> Vec<Peer> {
    let picture = Picture::decode(zone);
    let bytes = &zone[..picture.length];
    let zeros = vec![0u8; bytes.len()];
    let search = time(1, || (), || {
        let zeros = black_box(&zeros);
        // SAFETY: as many bytes are there.
        let found = unsafe { memchr(zeros.as_ptr().cast(), 1, zeros.len()) };
        assert!(black_box(found).is_null());
    });
    let slides = slides(&picture);
    let copy = RefCell::new(zone.to_vec());
    let slide = || {
        let mut copy = copy.borrow_mut();
        for (run, to) in black_box(&slides) {
            copy.copy_within(run.clone(), *to);
        }
    };
    let moved = time(1, || copy.borrow_mut().copy_from_slice(zone), slide);
    let mut peers = vec![
        Peer { call: "check", name: "sum of L bytes, a loop", nanoseconds: time_plain_read(bytes) },
        Peer { call: "check", name: "memchr over L bytes", nanoseconds: search },
        Peer { call: "compact", name: "memmove of what slides", nanoseconds: moved },
    ];
    peers.extend(of_a_handle_table(&picture, random));
    peers
}

/// The same calls on a handle table in C with the same blocks and holes, but for the free end.
fn of_a_handle_table(picture: &Picture, random: &mut Random) -> Vec<Peer> {
    const PEER: &str = "handle table in C, no check";
    let mut items = &picture.items[..];
    if let [rest @ .., Item::Free(_)] = items {
        items = rest;
    }
    let mut first = Buffers::like(items, CALLS * MOST);
    let live = |&handle: &usize| !matches!(items[handle], Item::Free(_));
    let live: Vec<usize> = (0..items.len()).filter(live).collect();
    // no handle twice, for each can be freed once
    let mut picked: Vec<u32> = Vec::new();
    while picked.len() < CALLS.min(live.len()) {
        let handle = random.pick(&live) as u32;
        if !picked.contains(&handle) {
            picked.push(handle);
        }
    }
    let count = |&handle: &u32| (handle, data_size(&items[handle as usize]).min(64));
    let stretches: Vec<(u32, u32)> = picked.iter().map(count).collect();
    let mut second = [7u8; 64];
    let second = second.as_mut_ptr();
    let table = first.lend();
    // SAFETY, of this and all below: the buffers live on, handles are live, counts are within their blocks.
    let read = time(picked.len(), || (), || {
        for &(handle, count) in black_box(&stretches) {
            unsafe { handle_table_read(black_box(&table), handle, count, second) };
        }
    });
    let state = RefCell::new(first.clone());
    let change = |works: usize, work: &dyn Fn(&mut HandleTable)| {
        let again = || state.borrow_mut().clone_from(&first);
        time(works, again, || work(black_box(&mut state.borrow_mut().lend())))
    };
    let write = change(picked.len(), &|table| {
        for &(handle, count) in black_box(&stretches) {
            unsafe { handle_table_write(table, handle, count, second) };
        }
    });
    let allocate = change(CALLS, &|table| {
        for _ in 0..CALLS {
            let c = black_box((MOST - HEADER) as u32);
            assert_ne!(unsafe { handle_table_allocate(table, c) }, NONE);
        }
    });
    let free = change(picked.len(), &|table| {
        for &handle in black_box(&picked) {
            unsafe { handle_table_free(table, handle) };
        }
    });
    let compact = change(1, &|table| unsafe { handle_table_compact(table) });
    let peer = |call, nanoseconds| Peer { call, name: PEER, nanoseconds };
    vec![
        peer("read 64 bytes", read),
        peer("write 64 bytes", write),
        peer("allocate relocatable", allocate),
        peer("free by handle", free),
        peer("compact", compact),
    ]
}
