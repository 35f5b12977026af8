//! The proved engine and the proved reader and writer, by include/hyaloneth.h and include/hyaloneth_wire.h.

/// The declarations that the hosts have, in the hosts' format.
#[rustfmt::skip]
#[path = "../../../hosts/rust/src/ffi.rs"]
mod c;

pub use c::PLACES;

// SAFETY, for all of them: a slice's pointer is not null, aligned, and good for its length; exclusive borrows overlap nothing else.

pub fn record_len(blocks: u32) -> u64 {
    unsafe { c::hyl_record_len(blocks) }
}

pub fn open(rec: &mut [u8], boards: u32, blocks: u32, tokens: u32) -> u64 {
    unsafe { c::hyl_open(rec.as_mut_ptr(), rec.len(), boards, blocks, tokens) }
}

pub fn step(rec: &mut [u8], step: &[u8]) -> u64 {
    unsafe { c::hyl_step(rec.as_mut_ptr(), rec.len(), step.as_ptr(), step.len()) }
}

pub fn run(rec: &mut [u8], list: &[u8], at: &mut usize, replies: &mut [u64]) -> usize {
    unsafe { c::hyl_run(rec.as_mut_ptr(), rec.len(), list.as_ptr(), list.len(), at, replies.as_mut_ptr(), replies.len()) }
}

pub fn letter(rec: &[u8], component: u32, block: u32) -> u64 {
    unsafe { c::hyl_letter(rec.as_ptr(), rec.len(), component, block) }
}

pub fn wire_read(bytes: &[u8], out: &mut [u32]) -> u64 {
    unsafe { c::hyl_wire_read(bytes.as_ptr(), bytes.len(), out.as_mut_ptr(), out.len()) }
}

pub fn wire_write(numbers: &[u32], out: &mut [u8], at: usize) -> u64 {
    unsafe { c::hyl_wire_write(numbers.as_ptr(), numbers.len(), out.as_mut_ptr(), out.len(), at) }
}

/// Another archive of the engine, which the benchmark measures beside this one: see build.rs.
#[cfg(other)]
pub mod other {
    mod c {
        extern "C" {
            pub fn other_hyl_record_len(blocks: u32) -> u64;
            pub fn other_hyl_step(rec: *mut u8, rec_len: usize, step: *const u8, step_len: usize) -> u64;
            pub fn other_hyl_run(
                rec: *mut u8,
                rec_len: usize,
                list: *const u8,
                list_len: usize,
                at: *mut usize,
                replies: *mut u64,
                replies_len: usize,
            ) -> usize;
            pub fn other_hyl_letter(rec: *const u8, rec_len: usize, component: u32, block: u32) -> u64;
        }
    }

    pub fn record_len(blocks: u32) -> u64 {
        unsafe { c::other_hyl_record_len(blocks) }
    }

    pub fn step(rec: &mut [u8], step: &[u8]) -> u64 {
        unsafe { c::other_hyl_step(rec.as_mut_ptr(), rec.len(), step.as_ptr(), step.len()) }
    }

    pub fn run(rec: &mut [u8], list: &[u8], at: &mut usize, replies: &mut [u64]) -> usize {
        unsafe { c::other_hyl_run(rec.as_mut_ptr(), rec.len(), list.as_ptr(), list.len(), at, replies.as_mut_ptr(), replies.len()) }
    }

    pub fn letter(rec: &[u8], component: u32, block: u32) -> u64 {
        unsafe { c::other_hyl_letter(rec.as_ptr(), rec.len(), component, block) }
    }
}
