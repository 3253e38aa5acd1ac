//! The counting licence of the proved library.

use super::lent;

extern "C" {
    fn wax_licence_fee(
        archive: *const u8,
        length: usize,
        tariff: *const u8,
        tariff_length: usize,
        first: u32,
        last: u32,
        address: u8,
        frames: *mut i64,
        fee: *mut i64,
    ) -> u32;
}

/// The number; frames and fee are set where it is 0.
#[inline]
pub fn fee(
    archive: &[u8],
    table: &[u8],
    stretch: (u32, u32),
    address: u8,
    frames: &mut i64,
    fee: &mut i64,
) -> u32 {
    let (archive, length) = lent(archive);
    let (table, table_length) = lent(table);
    unsafe {
        wax_licence_fee(
            archive,
            length,
            table,
            table_length,
            stretch.0,
            stretch.1,
            address,
            frames,
            fee,
        )
    }
}
