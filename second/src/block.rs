//! Blocks of records laid out by column: writing, reading, looking up. From document 02, wish 13.

use crate::record::{Header, View, ENTRY, HEADER, LONGEST, VALUE};
use crate::Refusal;

/// Records of one block at most.
pub const RECORDS: usize = 64;
/// Bytes of the two counts.
pub const COUNTS: usize = 4;
/// Planes of the values, one for each of their bytes.
pub const PLANES: usize = VALUE;
/// Length of the longest block.
pub const LONGEST_BLOCK: usize = COUNTS + RECORDS * LONGEST;

/// The records, one behind the other; a 65th is not looked into.
fn records(bytes: &[u8]) -> impl Iterator<Item = Result<View<'_>, Refusal>> {
    let mut rest = bytes;
    let mut seen = 0;
    std::iter::from_fn(move || {
        if rest.is_empty() {
            return None;
        }
        if seen == RECORDS {
            rest = &[];
            return Some(Err(Refusal::Block));
        }
        seen += 1;
        let view = View::first(rest);
        rest = view.map_or(&[], |view| &rest[view.length()..]);
        Some(view)
    })
}

/// Writes a block of all these records. Gives its length.
#[inline(never)]
pub fn write(bytes: &[u8], out: &mut [u8]) -> Result<usize, Refusal> {
    if out.len() < bytes.len() + COUNTS {
        return Err(Refusal::Buffer);
    }
    if bytes.is_empty() {
        return Err(Refusal::Block);
    }
    let (mut count, mut total) = (0, 0);
    for record in records(bytes) {
        count += 1;
        total += record?.addresses.len();
    }
    let (counts, rest) = out.split_at_mut(COUNTS);
    counts[..2].copy_from_slice(&(count as u16).to_le_bytes());
    counts[2..].copy_from_slice(&(total as u16).to_le_bytes());
    let (headers, rest) = rest.split_at_mut(HEADER * count);
    let (addresses, rest) = rest.split_at_mut(total);
    let planes = &mut rest[..PLANES * total];
    let mut at = 0;
    let mut from = 0;
    for (record, header) in records(bytes).zip(headers.chunks_exact_mut(HEADER)) {
        let record = record?;
        let entries = record.addresses.len();
        header.copy_from_slice(&bytes[from..][..HEADER]);
        addresses[at..][..entries].copy_from_slice(record.addresses);
        spread(record.values, planes, total, at);
        from += record.length();
        at += entries;
    }
    Ok(bytes.len() + COUNTS)
}

/// Eight slices, one of each plane, from `at` on.
fn parts_mut(planes: &mut [u8], total: usize, at: usize, entries: usize) -> [&mut [u8]; PLANES] {
    let mut all = planes.chunks_exact_mut(total);
    std::array::from_fn(|_| &mut all.next().unwrap()[at..][..entries])
}

/// Puts the values' bytes into their planes.
fn spread(values: &[u8], planes: &mut [u8], total: usize, at: usize) {
    let (values, _) = values.as_chunks::<PLANES>();
    if values.is_empty() {
        return;
    }
    let parts = parts_mut(planes, total, at, values.len());
    for (i, value) in values.iter().enumerate() {
        for k in 0..PLANES {
            parts[k][i] = value[k];
        }
    }
}

/// A block whose counts agree, in its parts.
struct Block<'a> {
    headers: &'a [[u8; HEADER]],
    addresses: &'a [u8],
    planes: &'a [u8],
}

/// One record of a block.
struct Part<'a> {
    head: &'a [u8; HEADER],
    header: Header,
    addresses: &'a [u8],
    at: usize,
}

impl<'a> Block<'a> {
    fn read(block: &'a [u8]) -> Option<Block<'a>> {
        let (&[c0, c1, t0, t1], rest) = block.split_first_chunk::<COUNTS>()?;
        let count = usize::from(u16::from_le_bytes([c0, c1]));
        let total = usize::from(u16::from_le_bytes([t0, t1]));
        if !(1..=RECORDS).contains(&count) || rest.len() != HEADER * count + ENTRY * total {
            return None;
        }
        let (headers, rest) = rest.split_at(HEADER * count);
        let (headers, _) = headers.as_chunks();
        let (addresses, planes) = rest.split_at(total);
        let claimed: u64 = headers.iter().map(|head| entries(head)).sum();
        (claimed == total as u64).then_some(Block {
            headers,
            addresses,
            planes,
        })
    }

    fn parts(&self) -> impl Iterator<Item = Part<'a>> + use<'_, 'a> {
        let mut at = 0;
        self.headers.iter().map(move |head| {
            let header = Header::first(head).unwrap();
            let start = at;
            at += header.entries() as usize;
            Part {
                head,
                header,
                addresses: &self.addresses[start..at],
                at: start,
            }
        })
    }

    fn is_sound(&self) -> bool {
        self.parts().fold(true, |sound, part| {
            sound & part.header.is_sound(part.head, part.addresses)
        })
    }

    /// A record's bytes, at the start of `out`; how many they are.
    fn put(&self, part: &Part, out: &mut [u8]) -> usize {
        let (head, rest) = out.split_at_mut(HEADER);
        let (addresses, values) = rest.split_at_mut(part.addresses.len());
        head.copy_from_slice(part.head);
        addresses.copy_from_slice(part.addresses);
        gather(self.planes, self.addresses.len(), part, values);
        HEADER + ENTRY * part.addresses.len()
    }
}

fn entries(head: &[u8; HEADER]) -> u64 {
    Header::first(head).unwrap().entries()
}

/// Takes the values' bytes out of their planes.
fn gather(planes: &[u8], total: usize, part: &Part, values: &mut [u8]) {
    let entries = part.addresses.len();
    if entries == 0 {
        return;
    }
    let mut all = planes.chunks_exact(total);
    let parts: [&[u8]; PLANES] =
        std::array::from_fn(|_| &all.next().unwrap()[part.at..][..entries]);
    let (values, _) = values[..PLANES * entries].as_chunks_mut::<PLANES>();
    for (i, value) in values.iter_mut().enumerate() {
        for k in 0..PLANES {
            value[k] = parts[k][i];
        }
    }
}

/// Reads a block: its records, one behind the other. Gives their length.
#[inline(never)]
pub fn read(block: &[u8], out: &mut [u8]) -> Result<usize, Refusal> {
    let length = block.len().saturating_sub(COUNTS);
    if out.len() < length {
        return Err(Refusal::Buffer);
    }
    let block = Block::read(block).ok_or(Refusal::Block)?;
    if !block.is_sound() {
        return Err(Refusal::Record);
    }
    let mut rest = out;
    for part in block.parts() {
        let length = block.put(&part, rest);
        rest = &mut rest[length..];
    }
    Ok(length)
}

/// Looks up the record at a place, from 0. Gives its length.
#[inline(never)]
pub fn record(block: &[u8], place: u32, out: &mut [u8]) -> Result<usize, Refusal> {
    if out.len() < LONGEST {
        return Err(Refusal::Buffer);
    }
    let block = Block::read(block).ok_or(Refusal::Block)?;
    let part = block.parts().nth(place as usize).ok_or(Refusal::Block)?;
    if !block.is_sound() {
        return Err(Refusal::Record);
    }
    Ok(block.put(&part, out))
}
