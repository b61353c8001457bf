//! The two sides: the static library and the Rust implementation. Each carries
//! out a call and answers a number made of what it was told, so that no call
//! can be left out and both can be seen to do the same.

use crate::c_interface::*;
use crate::calls::Call;
use crate::zone::{self, numbers, Stretch, Target, Walker, STRATA};

pub type Side = fn(&mut [u8], &Call, &mut [u8]) -> u32;

fn named(target: Target) -> (u32, u32) {
    match target {
        Target::Handle(handle) => (0, handle),
        Target::Pointer(pointer) => (1, pointer),
        Target::Name(name) => (2, name),
    }
}

/// The number and the value of a call, which is told where the value goes.
fn both(call: impl FnOnce(*mut u32) -> u32) -> u32 {
    let mut value = 0;
    call(&mut value) ^ value
}

fn done(answer: zone::Answer<()>) -> u32 {
    numbers(answer).0
}

fn value(answer: zone::Answer<u32>) -> u32 {
    let (number, value) = numbers(answer);
    number ^ value
}

pub fn archive(zone: &mut [u8], call: &Call, second: &mut [u8]) -> u32 {
    let (z, n) = (zone.as_mut_ptr(), zone.len() as u64);
    let (s, k) = (second.as_mut_ptr(), second.len() as u64);
    // SAFETY: both buffers are lent whole for the one call.
    unsafe {
        match *call {
            Call::Initialize(length, m) => nafelode_initialize(z, n, length, m),
            Call::Relocatable(c) => both(|v| nafelode_allocate_relocatable(z, n, c, v)),
            Call::Fixed(c) => both(|v| nafelode_allocate_fixed(z, n, c, v)),
            Call::FreeHandle(handle) => nafelode_free_handle(z, n, handle),
            Call::FreePointer(pointer) => nafelode_free_pointer(z, n, pointer),
            Call::Resize(handle, c) => nafelode_resize(z, n, handle, c),
            Call::Size(target) => {
                let (by, block) = named(target);
                both(|v| nafelode_size(z, n, by, block, v))
            }
            Call::Read(Stretch { block, offset, count }) => {
                let (by, block) = named(block);
                nafelode_read(z, n, by, block, offset, count, s, k)
            }
            Call::Write(Stretch { block, offset, count }) => {
                let (by, block) = named(block);
                nafelode_write(z, n, by, block, offset, count, s, k)
            }
            Call::View(Stretch { block, offset, count }) => {
                let (by, block) = named(block);
                both(|v| nafelode_view(z, n, by, block, offset, count, v))
            }
            Call::Compact => both(|v| nafelode_compact(z, n, v)),
            Call::Sum => {
                let (mut total, mut largest) = (0, 0);
                nafelode_sum(z, n, &mut total, &mut largest) ^ total ^ largest
            }
            Call::Check => both(|v| nafelode_check(z, n, v)),
            Call::Length => both(|v| nafelode_length(z, n, v)),
            Call::Enlarge(k) => nafelode_enlarge(z, n, k),
            Call::Shrink(k) => both(|v| nafelode_shrink(z, n, k, v)),
            Call::Roster => both(|v| nafelode_roster(z, n, s, k, v)),
            Call::Census => {
                let mut counts = [0; STRATA];
                let number = nafelode_census(z, n, s, k, &mut counts);
                counts.iter().fold(number, |all, count| all.rotate_left(3) ^ count)
            }
            Call::WalkerStart => nafelode_walker_start(z, n),
            Call::WalkerStep(offset) => {
                let (mut walker, mut kind, mut at, mut size) = (offset, 0, 0, 0);
                let number = nafelode_walker_step(z, n, &mut walker, &mut kind, &mut at, &mut size);
                number ^ kind ^ at ^ size ^ walker
            }
            Call::CreatePage(name, c) => both(|v| nafelode_create_page(z, n, name, c, v)),
            Call::UsePage(name) => both(|v| nafelode_use_page(z, n, name, v)),
            Call::SetDirty(name) => nafelode_set_dirty(z, n, name),
            Call::ClearDirty(name) => nafelode_clear_dirty(z, n, name),
            Call::SetLock(name) => nafelode_set_lock(z, n, name),
            Call::ClearLock(name) => nafelode_clear_lock(z, n, name),
            Call::DropPage(name) => nafelode_drop_page(z, n, name),
        }
    }
}

pub fn rust(zone: &mut [u8], call: &Call, second: &mut [u8]) -> u32 {
    match *call {
        Call::Initialize(length, m) => done(zone::initialize(zone, length, m)),
        Call::Relocatable(c) => value(zone::allocate_relocatable(zone, c)),
        Call::Fixed(c) => value(zone::allocate_fixed(zone, c)),
        Call::FreeHandle(handle) => done(zone::free_handle(zone, handle)),
        Call::FreePointer(pointer) => done(zone::free_pointer(zone, pointer)),
        Call::Resize(handle, c) => done(zone::resize(zone, handle, c)),
        Call::Size(target) => value(zone::size(zone, target)),
        Call::Read(stretch) => done(zone::read(zone, stretch, second)),
        Call::Write(stretch) => done(zone::write(zone, stretch, second)),
        Call::View(stretch) => {
            let part = zone::view(zone, stretch);
            (part.as_ptr() as usize - zone.as_ptr() as usize) as u32 ^ part.len() as u32
        }
        Call::Compact => value(zone::compact(zone)),
        Call::Sum => {
            let (number, (total, largest)) = numbers(zone::sum(zone));
            number ^ total ^ largest
        }
        Call::Check => {
            let (yes, count) = zone::check(zone);
            u32::from(yes) ^ count
        }
        Call::Length => value(zone::length(zone)),
        Call::Enlarge(k) => done(zone::enlarge(zone, k)),
        Call::Shrink(k) => value(zone::shrink(zone, k)),
        Call::Roster => value(zone::roster(zone, second)),
        Call::Census => {
            let (number, counts) = numbers(zone::census(zone, second));
            counts.iter().fold(number, |all, count| all.rotate_left(3) ^ count)
        }
        Call::WalkerStart => numbers(Walker::start(zone)).1.offset,
        Call::WalkerStep(offset) => {
            let (next, answer) = Walker { offset }.step(zone);
            let (number, step) = numbers(answer);
            number ^ step.kind ^ step.offset ^ step.size ^ next.offset
        }
        Call::CreatePage(name, c) => value(zone::create_page(zone, name, c)),
        Call::UsePage(name) => value(zone::use_page(zone, name)),
        Call::SetDirty(name) => done(zone::set_dirty(zone, name)),
        Call::ClearDirty(name) => done(zone::clear_dirty(zone, name)),
        Call::SetLock(name) => done(zone::set_lock(zone, name)),
        Call::ClearLock(name) => done(zone::clear_lock(zone, name)),
        Call::DropPage(name) => done(zone::drop_page(zone, name)),
    }
}
