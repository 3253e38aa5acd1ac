//! What is wrong with a record that is refused, where, and in words.

use crate::archive::Playback;
use crate::line::places::{header::Field as At, Place};
use crate::record::{claimed_length, Header, View, HEADER, KINDS, MOST, VALUE};
use crate::Refusal;
use std::fmt::{self, Display, Formatter};

/// The first fault of a record, in checking order.
#[derive(Clone, Debug, PartialEq, Eq)]
pub struct Fault {
    /// Where it is in the archive.
    pub at: usize,
    /// Where its record starts.
    pub record: usize,
    pub cause: Cause,
}

#[derive(Clone, Debug, PartialEq, Eq)]
pub enum Cause {
    /// The archive ends inside a header or a record.
    Short(usize, &'static str, usize),
    /// It ends inside what no record's sizes are.
    Sizes(usize, usize),
    /// So many reads or writes.
    Many(u32, &'static str),
    Transaction,
    Station(u32),
    Kind(u32),
    NotZero(u8),
    /// An address, and the one before it.
    Order(u8, u8),
    /// A commit number, and the one before it.
    Sequence(u32, u32),
    /// A counter, what is read, and what was left there.
    Read(u8, u64, u64),
}

/// A cause, and its place in the record.
type Found = Option<(usize, Cause)>;

impl Fault {
    /// What is wrong with the record that starts here; none if nothing is.
    pub fn of(archive: &[u8], record: usize, playback: &Playback) -> Option<Fault> {
        let bytes = &archive[record..];
        let found = short(bytes)
            .or_else(|| header(bytes))
            .or_else(|| order(bytes))
            .or_else(|| sequence(bytes, playback.last))
            .or_else(|| replay(bytes, playback));
        found.map(|(place, cause)| Fault {
            at: record + place,
            record,
            cause,
        })
    }
}

fn short(bytes: &[u8]) -> Found {
    let there = bytes.len();
    let (part, length) = match claimed_length(bytes) {
        None => ("header", HEADER),
        Some(length) => ("record", length),
    };
    let sizes = Header::first(bytes).map_or(0, |header| header.reads.max(header.writes));
    let cause = match sizes > MOST {
        true => Cause::Sizes(there, length),
        false => Cause::Short(there, part, length),
    };
    (there < length).then_some((there, cause))
}

fn header(bytes: &[u8]) -> Found {
    let header = Header::first(bytes)?;
    let spare = At::Spare.start();
    let fields = [
        (
            header.reads > MOST,
            At::Reads.start(),
            Cause::Many(header.reads, "reads"),
        ),
        (
            header.writes > MOST,
            At::Writes.start(),
            Cause::Many(header.writes, "writes"),
        ),
        (
            header.transaction == 0,
            At::Transaction.start(),
            Cause::Transaction,
        ),
        (
            header.station > 7,
            At::Station.start(),
            Cause::Station(header.station),
        ),
        (
            header.kind >= KINDS,
            At::Kind.start(),
            Cause::Kind(header.kind),
        ),
        (bytes[spare] != 0, spare, Cause::NotZero(bytes[spare])),
        (
            bytes[spare + 1] != 0,
            spare + 1,
            Cause::NotZero(bytes[spare + 1]),
        ),
    ];
    let found = fields.into_iter().find(|(wrong, ..)| *wrong);
    found.map(|(_, place, cause)| (place, cause))
}

fn order(bytes: &[u8]) -> Found {
    let header = Header::first(bytes)?;
    let addresses = &bytes[HEADER..][..header.entries() as usize];
    let mut pairs = (1..).zip(addresses.windows(2));
    // the first write has no address before it
    let broken = pairs.find(|(i, pair)| *i != header.reads as usize && pair[0] >= pair[1]);
    broken.map(|(i, pair)| (HEADER + i, Cause::Order(pair[1], pair[0])))
}

fn sequence(bytes: &[u8], last: u32) -> Found {
    let commit = Header::first(bytes)?.commit;
    let follows = last.checked_add(1) == Some(commit);
    (!follows).then_some((At::Commit.start(), Cause::Sequence(commit, last)))
}

fn replay(bytes: &[u8], playback: &Playback) -> Found {
    let view = View::first(bytes).ok()?;
    let left = |counter: u8| playback.values[usize::from(counter)];
    let mut reads = view.reads().enumerate();
    let (i, (counter, value)) = reads.find(|(_, (counter, value))| left(*counter) != *value)?;
    let place = HEADER + view.addresses.len() + VALUE * i;
    Some((place, Cause::Read(counter, value, left(counter))))
}

impl Cause {
    pub fn refusal(&self) -> Refusal {
        match self {
            Cause::Short(..) | Cause::Sizes(..) => Refusal::Short,
            Cause::Sequence(..) => Refusal::Sequence,
            Cause::Read(..) => Refusal::Replay,
            _ => Refusal::Record,
        }
    }
}

impl Display for Fault {
    fn fmt(&self, f: &mut Formatter<'_>) -> fmt::Result {
        let Fault { at, record, cause } = self;
        write!(f, "byte {at}, in the record at byte {record}: {cause}")
    }
}

impl Display for Cause {
    fn fmt(&self, f: &mut Formatter<'_>) -> fmt::Result {
        match self {
            Cause::Short(there, part, length) => write!(
                f,
                "the archive ends here, {there} bytes into a {part} of {length}"
            ),
            Cause::Sizes(there, length) => write!(
                f,
                "the archive ends here, {there} bytes into a record of {length}, but no record has such sizes"
            ),
            Cause::Many(count, what) => write!(f, "{count} {what}, but a record has at most 256"),
            Cause::Transaction => f.write_str("transaction 0, but the first is 1"),
            Cause::Station(station) => write!(f, "station {station}, but stations are 0 to 7"),
            Cause::Kind(kind) => write!(f, "kind {kind}, but kinds are 0 to 2"),
            Cause::NotZero(byte) => write!(f, "this byte is {byte}, but it must be 0"),
            Cause::Order(this, before) => {
                write!(f, "address {this} behind {before}, but addresses rise")
            }
            Cause::Sequence(this, last) => write!(
                f,
                "commit {this} behind commit {last}, but commits are numbered 1, 2, 3 and on"
            ),
            Cause::Read(counter, value, left) => write!(
                f,
                "counter {counter} is read as {value}, but the records before leave {left}"
            ),
        }
    }
}
