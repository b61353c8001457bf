//! Asks the archive, and gives its answers in the form of `calls`.

use crate::c_interface::*;
use crate::calls::{Call, Reply};
use crate::zone::{Stretch, Target, STRATA};

/// A part of memory that is lent for a call.
#[derive(Clone, Copy)]
pub struct Lent {
    pub start: *mut u8,
    pub length: usize,
}

/// How C names a target: by what, and the number. Any `by` but 0 and 2
/// means a pointer, so `by_pointer` stands for one of them.
fn named(target: Target, by_pointer: u32) -> (u32, u32) {
    match target {
        Target::Handle(handle) => (0, handle),
        Target::Pointer(pointer) => (by_pointer, pointer),
        Target::Name(name) => (2, name),
    }
}

/// What a value holds before its call, which has to write it.
const UNWRITTEN: u32 = 0x0BAD_0BAD;

/// A call without a value.
fn none(number: u32) -> Reply {
    Reply::new(number, &[])
}

/// A call with values, which is told where they go.
fn some<const N: usize>(call: impl FnOnce(&mut [u32; N]) -> u32) -> Reply {
    let mut values = [UNWRITTEN; N];
    let number = call(&mut values);
    Reply::new(number, &values)
}

/// A call with one value.
fn one(call: impl FnOnce(*mut u32) -> u32) -> Reply {
    some(|[value]| call(value))
}

/// Asks the archive. A view answers its offset and length, a walker's start
/// its offset; neither carries a number.
///
/// # Safety
/// Both parts are lent for this call alone, each readable and writable.
pub unsafe fn ask_archive(zone: Lent, call: &Call, second: Lent, by_pointer: u32) -> Reply {
    let (z, n) = (zone.start, zone.length as u64);
    match *call {
        Call::Initialize(length, m) => none(nafelode_initialize(z, n, length, m)),
        Call::Relocatable(c) => one(|v| nafelode_allocate_relocatable(z, n, c, v)),
        Call::Fixed(c) => one(|v| nafelode_allocate_fixed(z, n, c, v)),
        Call::FreeHandle(handle) => none(nafelode_free_handle(z, n, handle)),
        Call::FreePointer(pointer) => none(nafelode_free_pointer(z, n, pointer)),
        Call::Resize(handle, c) => none(nafelode_resize(z, n, handle, c)),
        Call::Size(target) => {
            let (by, block) = named(target, by_pointer);
            one(|v| nafelode_size(z, n, by, block, v))
        }
        Call::Read(stretch) | Call::Write(stretch) | Call::View(stretch) => {
            ask_stretch(zone, call, stretch, second, by_pointer)
        }
        Call::Compact => one(|v| nafelode_compact(z, n, v)),
        Call::Sum => some(|[total, largest]| nafelode_sum(z, n, total, largest)),
        Call::Check => {
            let mut count = UNWRITTEN;
            let yes = nafelode_check(z, n, &mut count);
            Reply::new(0, &[yes, count])
        }
        Call::Length => one(|v| nafelode_length(z, n, v)),
        Call::Enlarge(k) => none(nafelode_enlarge(z, n, k)),
        Call::Shrink(k) => one(|v| nafelode_shrink(z, n, k, v)),
        Call::Roster => one(|v| nafelode_roster(z, n, second.start, second.length as u64, v)),
        Call::Census => {
            let (limits, length) = (second.start, second.length as u64);
            some::<STRATA>(|counts| nafelode_census(z, n, limits, length, counts))
        }
        Call::WalkerStart => without_number(&[nafelode_walker_start(z, n)]),
        Call::WalkerStep(offset) => some(|[block_type, at, size, walker]| {
            *walker = offset;
            nafelode_walker_step(z, n, walker, block_type, at, size)
        }),
        Call::CreatePage(name, c) => one(|v| nafelode_create_page(z, n, name, c, v)),
        Call::UsePage(name) => one(|v| nafelode_use_page(z, n, name, v)),
        Call::SetDirty(name) => none(nafelode_set_dirty(z, n, name)),
        Call::ClearDirty(name) => none(nafelode_clear_dirty(z, n, name)),
        Call::SetLock(name) => none(nafelode_set_lock(z, n, name)),
        Call::ClearLock(name) => none(nafelode_clear_lock(z, n, name)),
        Call::DropPage(name) => none(nafelode_drop_page(z, n, name)),
    }
}

unsafe fn ask_stretch(
    zone: Lent,
    call: &Call,
    stretch: Stretch,
    second: Lent,
    by_pointer: u32,
) -> Reply {
    let (by, block) = named(stretch.block, by_pointer);
    let (z, n, s, k) = (zone.start, zone.length as u64, second.start, second.length as u64);
    let Stretch { offset, count, .. } = stretch;
    match call {
        Call::Read(_) => Reply::new(nafelode_read(z, n, by, block, offset, count, s, k), &[]),
        Call::Write(_) => Reply::new(nafelode_write(z, n, by, block, offset, count, s, k), &[]),
        _ => {
            let mut length = UNWRITTEN;
            let place = nafelode_view(z, n, by, block, offset, count, &mut length);
            without_number(&[place, length])
        }
    }
}

pub fn without_number(values: &[u32]) -> Reply {
    Reply { refusal: None, values: values.to_vec(), view: Vec::new() }
}
