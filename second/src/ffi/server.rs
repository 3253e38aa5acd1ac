//! The server of the proved library.

use super::{lent, lent_mut};
use crate::line::served::Lent;

extern "C" {
    fn wax_server_fresh(
        kinds: *const u8,
        kinds_length: usize,
        state: *mut u8,
        length: usize,
    ) -> u32;
    fn wax_server_step(
        message: *const u8,
        message_length: usize,
        state: *mut u8,
        state_length: usize,
        messages: *mut u8,
        messages_length: usize,
        records: *mut u8,
        records_length: usize,
        served: *mut u64,
        served_length: usize,
    ) -> u32;
}

#[inline]
pub fn fresh(kinds: &[u8], state: &mut [u8]) -> u32 {
    let (kinds, kinds_length) = lent(kinds);
    let (state, length) = lent_mut(state);
    unsafe { wax_server_fresh(kinds, kinds_length, state, length) }
}

#[inline]
pub fn step(message: &[u8], buffers: &mut Lent) -> u32 {
    let (message, message_length) = lent(message);
    let (state, state_length) = lent_mut(buffers.state);
    let (messages, messages_length) = lent_mut(buffers.messages);
    let (records, records_length) = lent_mut(buffers.records);
    let (served, served_length) = lent_mut(buffers.served);
    unsafe {
        wax_server_step(
            message,
            message_length,
            state,
            state_length,
            messages,
            messages_length,
            records,
            records_length,
            served,
            served_length,
        )
    }
}
