//! The exported entries, as `include/hyaloneth.h` and `include/hyaloneth_wire.h` declare them.
//!
//! Their duties on the caller are that every pointer is aligned and not NULL and has as many
//! elements behind it as its length says, and that what is written overlaps nothing else. References
//! and slices of Rust meet all of them, empty slices too.

extern "C" {
    pub fn hyl_record_len(blocks: u32) -> u64;
    pub fn hyl_open(rec: *mut u8, rec_len: usize, boards: u32, blocks: u32, tokens: u32) -> u64;
    pub fn hyl_step(rec: *mut u8, rec_len: usize, step: *const u8, step_len: usize) -> u64;
    pub fn hyl_run(
        rec: *mut u8,
        rec_len: usize,
        list: *const u8,
        list_len: usize,
        at: *mut usize,
        replies: *mut u64,
        replies_len: usize,
    ) -> usize;
    pub fn hyl_letter(rec: *const u8, rec_len: usize, component: u32, block: u32) -> u64;
    pub fn hyl_wire_read(bytes: *const u8, bytes_len: usize, out: *mut u32, out_len: usize) -> u64;
    pub fn hyl_wire_write(
        numbers: *const u32,
        numbers_len: usize,
        out: *mut u8,
        out_len: usize,
        at: usize,
    ) -> u64;
}

/// How many numbers encode a step: the kind byte, then a place for each tag.
pub const PLACES: usize = 12;
