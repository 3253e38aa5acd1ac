//! The register window of the proved library.

use super::stations::lending;
use super::{lent, lent_mut};
use crate::line::window::Lent;

extern "C" {
    fn wax_window_read(
        offset: u32,
        registers: *const u8,
        registers_length: usize,
        state: *const u8,
        state_length: usize,
        byte: *mut u8,
    ) -> u32;
    fn wax_window_interrupt(
        registers: *const u8,
        registers_length: usize,
        state: *const u8,
        state_length: usize,
        level: *mut u8,
    ) -> u32;
}

lending! {
    fn wax_window_write(offset: u32, byte: u8, registers: *mut u8, registers_length: usize);
    fn wax_window_step(message: *const u8, message_length: usize, registers: *mut u8, registers_length: usize);
}

#[inline]
pub fn read(offset: u32, registers: &[u8], state: &[u8], byte: &mut u8) -> u32 {
    let (registers, registers_length) = lent(registers);
    let (state, length) = lent(state);
    unsafe { wax_window_read(offset, registers, registers_length, state, length, byte) }
}

#[inline]
pub fn interrupt(registers: &[u8], state: &[u8], level: &mut u8) -> u32 {
    let (registers, registers_length) = lent(registers);
    let (state, length) = lent(state);
    unsafe { wax_window_interrupt(registers, registers_length, state, length, level) }
}

#[inline]
pub fn write(offset: u32, byte: u8, buffers: &mut Lent) -> u32 {
    let (registers, length) = lent_mut(buffers.registers);
    unsafe { wax_window_write(offset, byte, registers, length, &mut buffers.station) }
}

#[inline]
pub fn step(message: &[u8], buffers: &mut Lent) -> u32 {
    let (message, message_length) = lent(message);
    let (registers, length) = lent_mut(buffers.registers);
    unsafe {
        wax_window_step(
            message,
            message_length,
            registers,
            length,
            &mut buffers.station,
        )
    }
}
