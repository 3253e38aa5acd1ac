//! The comparison of two archives by the proved library.

use super::lent;

extern "C" {
    fn wax_archive_compare(
        first: *const u8,
        first_length: usize,
        second: *const u8,
        second_length: usize,
        order: *mut u32,
        commit: *mut u32,
    ) -> u32;
}

/// The number; order and commit are set where it is 0.
#[inline]
pub fn compare(first: &[u8], second: &[u8], order: &mut u32, commit: &mut u32) -> u32 {
    let (first, first_length) = lent(first);
    let (second, second_length) = lent(second);
    unsafe { wax_archive_compare(first, first_length, second, second_length, order, commit) }
}
