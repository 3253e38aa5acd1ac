//! The proved library's blocks.

use super::{lent, lent_mut};

extern "C" {
    fn wax_block_write(records: *const u8, length: usize, out: *mut u8, out_length: usize) -> u32;
    fn wax_block_read(block: *const u8, length: usize, out: *mut u8, out_length: usize) -> u32;
    fn wax_block_record(
        block: *const u8,
        length: usize,
        place: u32,
        out: *mut u8,
        out_length: usize,
    ) -> u32;
}

#[inline]
pub fn block_write(records: &[u8], out: &mut [u8]) -> u32 {
    let (records, length) = lent(records);
    let (out, out_length) = lent_mut(out);
    unsafe { wax_block_write(records, length, out, out_length) }
}

#[inline]
pub fn block_read(block: &[u8], out: &mut [u8]) -> u32 {
    let (block, length) = lent(block);
    let (out, out_length) = lent_mut(out);
    unsafe { wax_block_read(block, length, out, out_length) }
}

#[inline]
pub fn block_record(block: &[u8], place: u32, out: &mut [u8]) -> u32 {
    let (block, length) = lent(block);
    let (out, out_length) = lent_mut(out);
    unsafe { wax_block_record(block, length, place, out, out_length) }
}
