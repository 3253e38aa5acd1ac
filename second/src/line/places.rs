//! The tables of all layouts, and fields by their places: a record's header and a message from document 01, the states from
//! docs/STATE.md. Nothing else has a place or a length of its own.

use super::little::{long, put_long, put_word, word, LONG, WORD};
use super::sets::{Addresses, ADDRESSES, OBJECTS, PAGES, STATIONS};
use std::array;
use std::fmt::Debug;
use std::ops::Range;

/// The enum `Field` of a table: a row is a field and its bytes, one behind the other. So a place is said nowhere, only how
/// many bytes stand before it.
macro_rules! fields {
    ($($name:ident: $bytes:expr,)*) => {
        fields!(@lay 0;; $($name: $bytes,)*);
    };
    (@lay $at:expr; $($done:ident = $start:expr,)*; $name:ident: $bytes:expr, $($rest:tt)*) => {
        fields!(@lay $at + $bytes; $($done = $start,)* $name = $at,; $($rest)*);
    };
    (@lay $at:expr; $($name:ident = $start:expr,)*;) => {
        /// All of its bytes.
        pub const LENGTH: usize = $at;

        /// The fields, each by its first byte.
        #[derive(Clone, Copy, Debug, PartialEq, Eq)]
        #[repr(usize)]
        pub enum Field {
            $($name = $start,)*
        }

        impl $crate::line::places::Place for Field {
            const LENGTH: usize = LENGTH;

            fn all() -> &'static [Field] {
                &[$(Field::$name,)*]
            }

            fn start(self) -> usize {
                self as usize
            }
        }
    };
}

/// A record's header: "sizes first: reads n (2 bytes), writes m (2), commit number (4; 0 on the way up), transaction (4),
/// station (1), its kind (1), two zero bytes".
pub mod header {
    use super::WORD;

    fields! {
        Reads: 2,
        Writes: 2,
        Commit: WORD,
        Transaction: WORD,
        Station: 1,
        Kind: 1,
        Spare: 2,
    }
}

/// "Byte 0 kind, 1 station on the line, 2 page or requester, 3 object or cause, 4–7 transaction, 8–11 page set, 12–15 ...
/// commit number, 16–47 object sets by page, 48–111 eight values", and by document 02 "eight of 4 bytes after the values".
pub mod message {
    use super::{LONG, OBJECTS, PAGES, WORD};

    fields! {
        Kind: 1,
        Station: 1,
        PageOrRequester: 1,
        ObjectOrCause: 1,
        Transaction: WORD,
        Pages: WORD,
        Commit: WORD,
        Sets: PAGES,
        Values: OBJECTS * LONG,
        Versions: OBJECTS * WORD,
    }
}

/// "A station's state, 8,690 bytes"
pub mod station {
    use super::{ADDRESSES, LONG, OBJECTS, PAGES, STATIONS, WORD};

    fields! {
        Copy: ADDRESSES * LONG,
        ReadValue: ADDRESSES * LONG,
        WrittenValue: ADDRESSES * LONG,
        WaitingValues: OBJECTS * LONG,
        Kept: STATIONS * WORD,
        Version: ADDRESSES * WORD,
        Seen: ADDRESSES * WORD,
        Number: WORD,
        Cached: WORD,
        Whole: WORD,
        Unavailable: PAGES,
        ReadSet: PAGES,
        WrittenSet: PAGES,
        Locks: PAGES,
        Named: STATIONS * PAGES,
        Station: 1,
        Kind: 1,
        Open: 1,
        Wait: 1,
        Address: 1,
        WaitingSet: 1,
    }
}

/// "The server's state, 53,464 bytes"
pub mod server {
    use super::{ADDRESSES, LONG, PAGES, STATIONS, WORD};

    fields! {
        Value: ADDRESSES * LONG,
        ReadValue: STATIONS * ADDRESSES * LONG,
        WrittenValue: STATIONS * ADDRESSES * LONG,
        Age: STATIONS * LONG,
        Arrival: STATIONS * LONG,
        NextAge: LONG,
        NextArrival: LONG,
        Version: ADDRESSES * WORD,
        ReadVersion: STATIONS * ADDRESSES * WORD,
        WrittenVersion: STATIONS * ADDRESSES * WORD,
        Work: STATIONS * WORD,
        Latest: STATIONS * WORD,
        Listed: STATIONS * WORD,
        Last: WORD,
        Asked: WORD,
        WholeFor: PAGES * WORD,
        Lock: ADDRESSES,
        Whole: PAGES,
        ReadSet: STATIONS * PAGES,
        WrittenSet: STATIONS * PAGES,
        Kind: STATIONS,
        Want: STATIONS,
        Request: STATIONS,
        Called: STATIONS,
        Pend: STATIONS,
        Busy: STATIONS,
        Unfinished: STATIONS,
        AgeKept: STATIONS,
    }
}

/// A field of a table; "Entry i of a field stands at its first byte and i times its width".
pub trait Place: Copy + Debug + 'static {
    /// Bytes of the whole.
    const LENGTH: usize;

    /// In the table's order; "nothing lies between the fields".
    fn all() -> &'static [Self];

    fn start(self) -> usize;

    /// All its bytes.
    fn range(self) -> Range<usize> {
        let mut starts = Self::all().iter().map(|field| field.start());
        let end = starts.find(|start| *start > self.start());
        self.start()..end.unwrap_or(Self::LENGTH)
    }

    /// The field of this byte.
    fn of(place: usize) -> Option<Self> {
        let holds = |field: &&Self| field.range().contains(&place);
        Self::all().iter().find(holds).copied()
    }

    fn byte(self, bytes: &[u8]) -> u8 {
        self.byte_of(bytes, 0)
    }

    fn byte_of(self, bytes: &[u8], i: usize) -> u8 {
        bytes[self.start() + i]
    }

    fn word(self, bytes: &[u8], i: usize) -> u32 {
        word(bytes, self.start() + WORD * i)
    }

    fn long(self, bytes: &[u8], i: usize) -> u64 {
        long(bytes, self.start() + LONG * i)
    }

    /// Object sets by page; of a field by station or requester those of number `i`.
    fn sets(self, bytes: &[u8], i: usize) -> Addresses {
        let start = self.start() + PAGES * i;
        Addresses(array::from_fn(|page| bytes[start + page]))
    }

    fn put_byte(self, bytes: &mut [u8], byte: u8) {
        self.put_byte_of(bytes, 0, byte);
    }

    fn put_byte_of(self, bytes: &mut [u8], i: usize, byte: u8) {
        bytes[self.start() + i] = byte;
    }

    fn put_word(self, bytes: &mut [u8], i: usize, word: u32) {
        put_word(bytes, self.start() + WORD * i, word);
    }

    fn put_long(self, bytes: &mut [u8], i: usize, long: u64) {
        put_long(bytes, self.start() + LONG * i, long);
    }

    fn put_sets(self, bytes: &mut [u8], i: usize, sets: &Addresses) {
        let start = self.start() + PAGES * i;
        bytes[start..start + PAGES].copy_from_slice(&sets.0);
    }
}
