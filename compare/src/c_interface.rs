//! The static library's C interface, as its header declares it: each call answers a
//! number, and its values go through pointers.

use crate::zone::STRATA;

#[rustfmt::skip]
extern "C" {
    pub fn nafelode_initialize(zone: *mut u8, zone_length: u64, length: u32, masters: u32) -> u32;
    pub fn nafelode_allocate_relocatable(zone: *mut u8, zone_length: u64, c: u32, handle: *mut u32) -> u32;
    pub fn nafelode_allocate_fixed(zone: *mut u8, zone_length: u64, c: u32, pointer: *mut u32) -> u32;
    pub fn nafelode_free_handle(zone: *mut u8, zone_length: u64, handle: u32) -> u32;
    pub fn nafelode_free_pointer(zone: *mut u8, zone_length: u64, pointer: u32) -> u32;
    pub fn nafelode_resize(zone: *mut u8, zone_length: u64, handle: u32, c: u32) -> u32;
    pub fn nafelode_size(zone: *const u8, zone_length: u64, by: u32, block: u32, size: *mut u32) -> u32;
    pub fn nafelode_read(zone: *const u8, zone_length: u64, by: u32, block: u32, offset: u32, count: u32, out: *mut u8, out_length: u64) -> u32;
    pub fn nafelode_write(zone: *mut u8, zone_length: u64, by: u32, block: u32, offset: u32, count: u32, src: *const u8, src_length: u64) -> u32;
    pub fn nafelode_view(zone: *const u8, zone_length: u64, by: u32, block: u32, offset: u32, count: u32, length: *mut u32) -> u32;
    pub fn nafelode_compact(zone: *mut u8, zone_length: u64, largest: *mut u32) -> u32;
    pub fn nafelode_sum(zone: *const u8, zone_length: u64, total: *mut u32, largest: *mut u32) -> u32;
    pub fn nafelode_check(zone: *const u8, zone_length: u64, count: *mut u32) -> u32;
    pub fn nafelode_length(zone: *const u8, zone_length: u64, length: *mut u32) -> u32;
    pub fn nafelode_enlarge(zone: *mut u8, zone_length: u64, k: u32) -> u32;
    pub fn nafelode_shrink(zone: *mut u8, zone_length: u64, k: u32, stripped: *mut u32) -> u32;
    pub fn nafelode_roster(zone: *const u8, zone_length: u64, out: *mut u8, out_length: u64, count: *mut u32) -> u32;
    pub fn nafelode_census(zone: *const u8, zone_length: u64, limits: *const u8, limits_length: u64, counts: *mut [u32; STRATA]) -> u32;
    pub fn nafelode_walker_start(zone: *const u8, zone_length: u64) -> u32;
    pub fn nafelode_create_page(zone: *mut u8, zone_length: u64, name: u32, c: u32, value: *mut u32) -> u32;
    pub fn nafelode_use_page(zone: *mut u8, zone_length: u64, name: u32, offset: *mut u32) -> u32;
    pub fn nafelode_set_dirty(zone: *mut u8, zone_length: u64, name: u32) -> u32;
    pub fn nafelode_clear_dirty(zone: *mut u8, zone_length: u64, name: u32) -> u32;
    pub fn nafelode_set_lock(zone: *mut u8, zone_length: u64, name: u32) -> u32;
    pub fn nafelode_clear_lock(zone: *mut u8, zone_length: u64, name: u32) -> u32;
    pub fn nafelode_drop_page(zone: *mut u8, zone_length: u64, name: u32) -> u32;
    pub fn nafelode_walker_step(zone: *const u8, zone_length: u64, walker: *mut u32, block_type: *mut u32, offset: *mut u32, size: *mut u32) -> u32;
}
