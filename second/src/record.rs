//! The record: its check, its writer, and a form that owns its entries.

use crate::line::little::LONG;
use crate::line::places::{header, Place};
use crate::Refusal;

/// Bytes before the addresses.
pub const HEADER: usize = header::LENGTH;
/// Bytes of a value, and of an entry: an address and a value.
pub const VALUE: usize = LONG;
pub const ENTRY: usize = 1 + VALUE;
/// Reads, and writes, of one record at most.
pub const MOST: u32 = 256;
/// Kinds of station, from 0: "number 5 starts at kind 3".
pub const KINDS: u32 = 3;
/// Length of the longest record.
pub const LONGEST: usize = HEADER + ENTRY * 2 * MOST as usize;

/// The header's fields, as wide as a caller can give them.
#[derive(Clone, Copy, Debug, PartialEq, Eq)]
pub struct Header {
    pub reads: u32,
    pub writes: u32,
    pub commit: u32,
    pub transaction: u32,
    pub station: u32,
    pub kind: u32,
}

impl Header {
    #[inline]
    fn read(bytes: &[u8; HEADER]) -> Header {
        let [n0, n1, m0, m1, c0, c1, c2, c3, t0, t1, t2, t3, station, kind, _, _] = *bytes;
        Header {
            reads: u16::from_le_bytes([n0, n1]).into(),
            writes: u16::from_le_bytes([m0, m1]).into(),
            commit: u32::from_le_bytes([c0, c1, c2, c3]),
            transaction: u32::from_le_bytes([t0, t1, t2, t3]),
            station: station.into(),
            kind: kind.into(),
        }
    }

    /// The first header of these bytes, in range or not.
    #[inline]
    pub fn first(bytes: &[u8]) -> Option<Header> {
        bytes.first_chunk().map(Header::read)
    }

    /// The sixteen bytes; the fields must be in range.
    #[inline]
    fn bytes(&self) -> [u8; HEADER] {
        let [n0, n1, ..] = self.reads.to_le_bytes();
        let [m0, m1, ..] = self.writes.to_le_bytes();
        let [c0, c1, c2, c3] = self.commit.to_le_bytes();
        let [t0, t1, t2, t3] = self.transaction.to_le_bytes();
        let [station, ..] = self.station.to_le_bytes();
        let [kind, ..] = self.kind.to_le_bytes();
        [
            n0, n1, m0, m1, c0, c1, c2, c3, t0, t1, t2, t3, station, kind, 0, 0,
        ]
    }

    #[inline]
    fn in_range(&self) -> bool {
        (self.reads <= MOST)
            & (self.writes <= MOST)
            & (self.transaction != 0)
            & (self.station <= 7)
            & (self.kind < KINDS)
    }

    /// Whether these fields, their bytes and the record's addresses keep the rules of a record.
    #[inline]
    pub(crate) fn is_sound(&self, head: &[u8; HEADER], addresses: &[u8]) -> bool {
        let spare = header::Field::Spare.byte_of(head, 0) | header::Field::Spare.byte_of(head, 1);
        self.in_range() & (spare == 0) & both_rise(addresses, self.reads as usize)
    }

    /// Reads and writes together: two 32-bit counts cannot wrap here.
    #[inline]
    pub fn entries(&self) -> u64 {
        u64::from(self.reads) + u64::from(self.writes)
    }

    /// Length of the record, header and all.
    #[inline]
    pub fn length(&self) -> u64 {
        HEADER as u64 + ENTRY as u64 * self.entries()
    }
}

/// A record seen in the bytes that hold it; nothing is copied.
#[derive(Clone, Copy, Debug, PartialEq, Eq)]
pub struct View<'a> {
    pub header: Header,
    pub addresses: &'a [u8],
    pub values: &'a [u8],
}

impl<'a> View<'a> {
    /// The first record of these bytes; what lies behind it is not looked at.
    #[inline]
    pub fn first(bytes: &'a [u8]) -> Result<View<'a>, Refusal> {
        let (head, rest) = bytes.split_first_chunk().ok_or(Refusal::Short)?;
        let header = Header::read(head);
        let entries = header.entries() as usize;
        let body = rest.get(..ENTRY * entries).ok_or(Refusal::Short)?;
        let (addresses, values) = body.split_at(entries);
        if header.is_sound(head, addresses) {
            Ok(View {
                header,
                addresses,
                values,
            })
        } else {
            Err(Refusal::Record)
        }
    }

    /// Length of the record in bytes.
    #[inline]
    pub fn length(&self) -> usize {
        HEADER + self.addresses.len() + self.values.len()
    }

    #[inline]
    pub fn reads(&self) -> impl Iterator<Item = (u8, u64)> + 'a {
        let reads = self.header.reads as usize;
        entries(&self.addresses[..reads], &self.values[..VALUE * reads])
    }

    #[inline]
    pub fn writes(&self) -> impl Iterator<Item = (u8, u64)> + 'a {
        let reads = self.header.reads as usize;
        entries(&self.addresses[reads..], &self.values[VALUE * reads..])
    }
}

/// Addresses with their values.
#[inline]
fn entries<'a>(addresses: &'a [u8], values: &'a [u8]) -> impl Iterator<Item = (u8, u64)> + 'a {
    let (values, _) = values.as_chunks();
    addresses
        .iter()
        .zip(values)
        .map(|(&address, &value)| (address, u64::from_le_bytes(value)))
}

/// Addresses rise strictly within the reads and within the writes.
#[inline]
fn both_rise(addresses: &[u8], reads: usize) -> bool {
    let (reads, writes) = addresses.split_at(reads);
    rises(reads) & rises(writes)
}

/// No early way out: the loop is then done many bytes at a time.
#[inline]
fn rises(addresses: &[u8]) -> bool {
    let behind = addresses.get(1..).unwrap_or(&[]);
    addresses
        .iter()
        .zip(behind)
        .fold(true, |rises, (a, b)| rises & (a < b))
}

/// Length that the size fields of the first record claim, whether it is there or not.
#[inline]
pub fn claimed_length(bytes: &[u8]) -> Option<usize> {
    Header::first(bytes).map(|header| header.length() as usize)
}

/// Record check: the first record of these bytes.
#[inline]
pub fn check(bytes: &[u8]) -> Result<(), Refusal> {
    View::first(bytes).map(|_| ())
}

/// Record writer: values are eight bytes each, in the addresses' order. Gives the record's length.
#[inline]
pub fn write(
    header: &Header,
    addresses: &[u8],
    values: &[u8],
    out: &mut [u8],
) -> Result<usize, Refusal> {
    if (out.len() as u64) < header.length() {
        return Err(Refusal::Buffer);
    }
    // the counts now fit in memory, so in a usize
    let entries = header.entries() as usize;
    let lengths_fit = (addresses.len() == entries) & (values.len() == VALUE * entries);
    if !(header.in_range() && lengths_fit && both_rise(addresses, header.reads as usize)) {
        return Err(Refusal::Record);
    }
    let (head, rest) = out.split_at_mut(HEADER);
    let (to_addresses, rest) = rest.split_at_mut(entries);
    head.copy_from_slice(&header.bytes());
    to_addresses.copy_from_slice(addresses);
    rest[..VALUE * entries].copy_from_slice(values);
    Ok(HEADER + ENTRY * entries)
}

/// A record that owns its entries, for making and changing records.
#[derive(Clone, Debug, PartialEq, Eq)]
pub struct Record {
    pub reads: Vec<(u8, u64)>,
    pub writes: Vec<(u8, u64)>,
    pub commit: u32,
    pub transaction: u32,
    pub station: u8,
    pub kind: u8,
}

impl Record {
    pub fn header(&self) -> Header {
        Header {
            reads: self.reads.len() as u32,
            writes: self.writes.len() as u32,
            commit: self.commit,
            transaction: self.transaction,
            station: self.station.into(),
            kind: self.kind.into(),
        }
    }

    pub fn addresses(&self) -> Vec<u8> {
        self.entries().map(|(address, _)| address).collect()
    }

    pub fn values(&self) -> Vec<u8> {
        self.entries()
            .flat_map(|(_, value)| value.to_le_bytes())
            .collect()
    }

    /// The record's bytes as the fields stand, well-formed or not.
    pub fn encode(&self) -> Vec<u8> {
        let mut bytes = self.header().bytes().to_vec();
        bytes.extend(self.addresses());
        bytes.extend(self.values());
        bytes
    }

    /// The first record of these bytes.
    pub fn decode(bytes: &[u8]) -> Result<Record, Refusal> {
        let view = View::first(bytes)?;
        Ok(Record {
            reads: view.reads().collect(),
            writes: view.writes().collect(),
            commit: view.header.commit,
            transaction: view.header.transaction,
            station: view.header.station as u8,
            kind: view.header.kind as u8,
        })
    }

    fn entries(&self) -> impl Iterator<Item = (u8, u64)> + '_ {
        self.reads.iter().chain(&self.writes).copied()
    }
}
