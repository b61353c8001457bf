//! A call of document 01 or 02 as data, and its answer, so that the zone and the
//! two models can be asked the same.

use crate::zone::{self, Stretch, Target, Walker};

#[derive(Clone, Copy, Debug, PartialEq, Eq)]
pub enum Call {
    Initialize(u32, u32),
    Relocatable(u32),
    Fixed(u32),
    FreeHandle(u32),
    FreePointer(u32),
    Resize(u32, u32),
    Size(Target),
    Read(Stretch),
    Write(Stretch),
    View(Stretch),
    Compact,
    Sum,
    Check,
    Length,
    Enlarge(u32),
    Shrink(u32),
    Roster,
    /// by the limits in the second buffer (document 02, U7)
    Census,
    WalkerStart,
    WalkerStep(u32),
    /// name and data bytes
    CreatePage(u32, u32),
    UsePage(u32),
    SetDirty(u32),
    ClearDirty(u32),
    SetLock(u32),
    ClearLock(u32),
    DropPage(u32),
}

#[derive(Clone, Debug, PartialEq, Eq)]
pub struct Reply {
    /// the refusal number, 0 if done; a view has none
    pub refusal: Option<u32>,
    /// every value, in document 01's order; for a step also the new position
    pub values: Vec<u32>,
    /// a view's bytes
    pub view: Vec<u8>,
}

impl Reply {
    pub fn new(refusal: u32, values: &[u32]) -> Reply {
        Reply { refusal: Some(refusal), values: values.to_vec(), view: Vec::new() }
    }

    pub fn of_view(bytes: &[u8]) -> Reply {
        Reply { refusal: None, values: Vec::new(), view: bytes.to_vec() }
    }

    /// A refused call: 0 for each of its values.
    pub fn refused(number: u32, call: &Call) -> Reply {
        match call {
            Call::View(_) => Reply::of_view(&[]),
            Call::WalkerStep(offset) => Reply::new(number, &[0, 0, 0, *offset]),
            _ => Reply::new(number, &vec![0; how_many_values(call)]),
        }
    }
}

fn how_many_values(call: &Call) -> usize {
    match call {
        Call::Relocatable(_) | Call::Fixed(_) | Call::Size(_) | Call::Compact => 1,
        Call::Length | Call::Shrink(_) | Call::Roster | Call::WalkerStart => 1,
        Call::CreatePage(..) | Call::UsePage(_) => 1,
        Call::Sum | Call::Check => 2,
        Call::Census => 19,
        _ => 0,
    }
}

/// Asks the zone. `second` is the call's own second buffer, if it takes one.
pub fn ask_zone(buffer: &mut [u8], call: &Call, second: &mut [u8]) -> Reply {
    fn none(answer: zone::Answer<()>) -> Reply {
        Reply::new(zone::numbers(answer).0, &[])
    }
    fn one(answer: zone::Answer<u32>) -> Reply {
        let (refusal, value) = zone::numbers(answer);
        Reply::new(refusal, &[value])
    }
    match *call {
        Call::Initialize(length, m) => none(zone::initialize(buffer, length, m)),
        Call::Relocatable(c) => one(zone::allocate_relocatable(buffer, c)),
        Call::Fixed(c) => one(zone::allocate_fixed(buffer, c)),
        Call::FreeHandle(handle) => none(zone::free_handle(buffer, handle)),
        Call::FreePointer(pointer) => none(zone::free_pointer(buffer, pointer)),
        Call::Resize(handle, c) => none(zone::resize(buffer, handle, c)),
        Call::Size(target) => one(zone::size(buffer, target)),
        Call::Read(stretch) => none(zone::read(buffer, stretch, second)),
        Call::Write(stretch) => none(zone::write(buffer, stretch, second)),
        Call::View(stretch) => Reply::of_view(zone::view(buffer, stretch)),
        Call::Compact => one(zone::compact(buffer)),
        Call::Sum => {
            let (refusal, (total, largest)) = zone::numbers(zone::sum(buffer));
            Reply::new(refusal, &[total, largest])
        }
        Call::Check => {
            let (yes, live) = zone::check(buffer);
            Reply::new(0, &[u32::from(yes), live])
        }
        Call::Length => one(zone::length(buffer)),
        Call::Enlarge(k) => none(zone::enlarge(buffer, k)),
        Call::Shrink(k) => one(zone::shrink(buffer, k)),
        Call::Roster => one(zone::roster(buffer, second)),
        Call::Census => {
            let (refusal, counts) = zone::numbers(zone::census(buffer, second));
            Reply::new(refusal, &counts)
        }
        Call::WalkerStart => {
            let (refusal, walker) = zone::numbers(Walker::start(buffer));
            Reply::new(refusal, &[walker.offset])
        }
        Call::WalkerStep(offset) => ask_step(buffer, offset),
        Call::CreatePage(name, c) => one(zone::create_page(buffer, name, c)),
        Call::UsePage(name) => one(zone::use_page(buffer, name)),
        Call::SetDirty(name) => none(zone::set_dirty(buffer, name)),
        Call::ClearDirty(name) => none(zone::clear_dirty(buffer, name)),
        Call::SetLock(name) => none(zone::set_lock(buffer, name)),
        Call::ClearLock(name) => none(zone::clear_lock(buffer, name)),
        Call::DropPage(name) => none(zone::drop_page(buffer, name)),
    }
}

/// Both forms of the step, which must agree.
fn ask_step(buffer: &[u8], offset: u32) -> Reply {
    let (next, answer) = Walker { offset }.step(buffer);
    let mut own = Walker { offset };
    let same = own.advance(buffer);
    assert_eq!((own, same), (next, answer), "step and advance differ");
    let (refusal, step) = zone::numbers(answer);
    Reply::new(refusal, &[step.kind, step.offset, step.size, next.offset])
}
