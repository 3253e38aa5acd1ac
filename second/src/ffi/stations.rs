//! The stations of the proved library.

use super::{lent, lent_mut};
use crate::line::lent::{Lent, Operation, TOLD};
use crate::line::{Answer, Cause};

extern "C" {
    fn wax_station_fresh(station: u32, kind: u32, state: *mut u8, length: usize) -> u32;
    fn wax_down_check(station: u32, message: *const u8, length: usize) -> u32;
    fn wax_up_check(
        kinds: *const u8,
        kinds_length: usize,
        message: *const u8,
        length: usize,
    ) -> u32;
}

/// Functions that end in state, messages, commit and told, each with its length; `lent` gives them all.
macro_rules! lending {
    ($(fn $name:ident($($argument:ident: $type:ty),*);)*) => {
        mod declared {
            extern "C" {
                $(pub fn $name(
                    $($argument: $type,)*
                    state: *mut u8,
                    state_length: usize,
                    messages: *mut u8,
                    messages_length: usize,
                    commit: *mut u8,
                    commit_length: usize,
                    told: *mut u64,
                    told_length: usize,
                ) -> u32;)*
            }
        }
        $(#[inline]
        unsafe fn $name($($argument: $type,)* lent: &mut $crate::line::lent::Lent) -> u32 {
            let (state, state_length) = $crate::ffi::lent_mut(lent.state);
            let (messages, messages_length) = $crate::ffi::lent_mut(lent.messages);
            let (commit, commit_length) = $crate::ffi::lent_mut(lent.commit);
            let (told, told_length) = $crate::ffi::lent_mut(lent.told);
            declared::$name(
                $($argument,)*
                state,
                state_length,
                messages,
                messages_length,
                commit,
                commit_length,
                told,
                told_length,
            )
        })*
    };
}

pub(super) use lending;

lending! {
    fn wax_station_begin();
    fn wax_station_read(address: u32);
    fn wax_station_write(address: u32, value: u64);
    fn wax_station_write_set(page: u32, set: u32, values: *const u64, values_length: usize);
    fn wax_station_commit();
    fn wax_station_abort();
    fn wax_station_purge(page: u32);
    fn wax_station_step(message: *const u8, message_length: usize);
}

#[inline]
pub fn fresh(station: u32, kind: u32, state: &mut [u8]) -> u32 {
    let (state, length) = lent_mut(state);
    unsafe { wax_station_fresh(station, kind, state, length) }
}

#[inline]
pub fn begin(lent: &mut Lent) -> u32 {
    unsafe { wax_station_begin(lent) }
}

#[inline]
pub fn read(address: u32, lent: &mut Lent) -> u32 {
    unsafe { wax_station_read(address, lent) }
}

#[inline]
pub fn write(address: u32, value: u64, lent: &mut Lent) -> u32 {
    unsafe { wax_station_write(address, value, lent) }
}

#[inline]
pub fn write_set(page: u32, set: u32, values: &[u64], buffers: &mut Lent) -> u32 {
    let (values, length) = lent(values);
    unsafe { wax_station_write_set(page, set, values, length, buffers) }
}

#[inline]
pub fn commit(lent: &mut Lent) -> u32 {
    unsafe { wax_station_commit(lent) }
}

#[inline]
pub fn abort(lent: &mut Lent) -> u32 {
    unsafe { wax_station_abort(lent) }
}

#[inline]
pub fn purge(page: u32, lent: &mut Lent) -> u32 {
    unsafe { wax_station_purge(page, lent) }
}

#[inline]
pub fn step(message: &[u8], buffers: &mut Lent) -> u32 {
    let (message, length) = lent(message);
    unsafe { wax_station_step(message, length, buffers) }
}

/// The function that does this operation.
#[inline]
pub fn call(operation: &Operation, lent: &mut Lent) -> u32 {
    match operation {
        Operation::Begin => begin(lent),
        Operation::Read(address) => read(*address, lent),
        Operation::Write(address, value) => write(*address, *value, lent),
        Operation::WriteSet(page, set, values) => write_set(*page, *set, values, lent),
        Operation::Commit => commit(lent),
        Operation::Abort => abort(lent),
        Operation::Purge(page) => purge(*page, lent),
        Operation::Step(message) => step(message, lent),
    }
}

#[inline]
pub fn down_check(station: u32, message: &[u8]) -> u32 {
    let (message, length) = lent(message);
    unsafe { wax_down_check(station, message, length) }
}

#[inline]
pub fn up_check(kinds: &[u8], message: &[u8]) -> u32 {
    let (kinds, kinds_length) = lent(kinds);
    let (message, length) = lent(message);
    unsafe { wax_up_check(kinds, kinds_length, message, length) }
}

/// What an owner is told, by the C interface's number.
pub fn answer(told: &[u64]) -> Option<Answer> {
    let [answer, value, ..] = *told.first_chunk::<TOLD>()?;
    let word = u32::try_from(value).ok();
    Some(match answer {
        1 => Answer::Begun(word?),
        2 => Answer::Value(value),
        3 => Answer::Waits,
        4 => Answer::Written,
        5 => Answer::Committed(word?),
        6 if value == 0 => Answer::Dropped,
        6 => Answer::Aborted(Cause::of(u8::try_from(value).ok()?)?),
        7 => Answer::Purged,
        8 => Answer::Nothing,
        _ => return None,
    })
}
