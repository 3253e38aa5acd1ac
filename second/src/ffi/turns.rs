//! The turn-giver of the proved library. Must say the same as `include/waxwingrack.h`.

use super::lent_mut;
use crate::turns::Line;

extern "C" {
    fn wax_turn_next(lines: *mut Line, count: usize, line: *mut usize) -> u32;
}

#[inline]
pub fn turn_next(lines: &mut [Line], line: &mut usize) -> u32 {
    let (lines, count) = lent_mut(lines);
    unsafe { wax_turn_next(lines, count, line) }
}
