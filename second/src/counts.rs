//! One archive, two readers (document 02, wish 8), and the counts file of docs/COUNTS.md.

use crate::archive::Playback;
use crate::numbers::{fields_of, END, OK};
use crate::record::{View, ENTRY, MOST, VALUE};
use crate::Refusal;

/// Bytes before the addresses: commit number and number of writes.
pub const HEADER: usize = 6;
/// Length of the longest counts.
pub const LONGEST: usize = HEADER + ENTRY * MOST as usize;
/// Numbers that the service reader gives of a record, and the counts file's reader of a commit.
pub const SERVICE_FIELDS: usize = 8;
pub const COUNTS_FIELDS: usize = 3;

/// What the counts reader shows of a record.
#[derive(Clone, Debug, PartialEq, Eq)]
pub struct Counts {
    pub commit: u32,
    pub writes: Vec<(u8, u64)>,
}

impl Counts {
    fn of(view: &View) -> Counts {
        Counts {
            commit: view.header.commit,
            writes: view.writes().collect(),
        }
    }

    pub fn encode(&self) -> Vec<u8> {
        let mut bytes = self.commit.to_le_bytes().to_vec();
        bytes.extend((self.writes.len() as u16).to_le_bytes());
        bytes.extend(self.writes.iter().map(|(address, _)| address));
        for (_, value) in &self.writes {
            bytes.extend(value.to_le_bytes());
        }
        bytes
    }

    /// The first counts of these bytes.
    pub fn decode(bytes: &[u8]) -> Result<Counts, Refusal> {
        let (head, rest) = bytes.split_first_chunk::<HEADER>().ok_or(Refusal::Short)?;
        let [c0, c1, c2, c3, m0, m1] = *head;
        let count = usize::from(u16::from_le_bytes([m0, m1]));
        let body = rest.get(..ENTRY * count).ok_or(Refusal::Short)?;
        let (addresses, values) = body.split_at(count);
        if count > MOST as usize || !addresses.is_sorted_by(|a, b| a < b) {
            return Err(Refusal::Record);
        }
        let (values, _) = values.as_chunks();
        let values = values.iter().map(|value| u64::from_le_bytes(*value));
        Ok(Counts {
            commit: u32::from_le_bytes([c0, c1, c2, c3]),
            writes: addresses.iter().copied().zip(values).collect(),
        })
    }
}

/// The record of a commit and where it starts, everything up to it played; none where the archive ends before it.
fn find(archive: &[u8], commit: u32) -> Result<Option<(usize, View<'_>)>, Refusal> {
    let mut playback = Playback::FRESH;
    let mut at = 0;
    while playback.last < commit && at < archive.len() {
        let view = playback.record(&archive[at..])?;
        if playback.last == commit {
            return Ok(Some((at, view)));
        }
        at += view.length();
    }
    Ok(None)
}

/// The fields as `archive_read` has them, behind the record's place.
fn service(at: usize, view: &View) -> [u64; SERVICE_FIELDS] {
    let [end, reads, writes, commit, transaction, station, kind] = fields_of(at, view);
    [
        at as u64,
        end,
        reads,
        writes,
        commit,
        transaction,
        station,
        kind,
    ]
}

pub fn counts_at(archive: &[u8], commit: u32, out: &mut [u8]) -> u32 {
    if out.len() < LONGEST {
        return Refusal::Buffer.number();
    }
    match find(archive, commit) {
        Ok(Some((_, view))) => {
            put(&view, out);
            OK
        }
        Ok(None) => END,
        Err(refusal) => refusal.number(),
    }
}

pub fn service_at(archive: &[u8], commit: u32, out: &mut [u64]) -> u32 {
    let Some(out) = out.first_chunk_mut() else {
        return Refusal::Buffer.number();
    };
    match find(archive, commit) {
        Ok(Some((at, view))) => {
            *out = service(at, &view);
            OK
        }
        Ok(None) => END,
        Err(refusal) => refusal.number(),
    }
}

pub fn counts_record(bytes: &[u8], playback: &mut Playback, out: &mut [u8]) -> u32 {
    if out.len() < LONGEST {
        return Refusal::Buffer.number();
    }
    match playback.record(bytes) {
        Ok(view) => {
            put(&view, out);
            OK
        }
        Err(refusal) => refusal.number(),
    }
}

pub fn service_record(bytes: &[u8], playback: &mut Playback, out: &mut [u64]) -> u32 {
    let Some(out) = out.first_chunk_mut() else {
        return Refusal::Buffer.number();
    };
    match playback.record(bytes) {
        Ok(view) => {
            *out = service(0, &view);
            OK
        }
        Err(refusal) => refusal.number(),
    }
}

fn put(view: &View, out: &mut [u8]) {
    let [m0, m1, ..] = view.header.writes.to_le_bytes();
    let [c0, c1, c2, c3] = view.header.commit.to_le_bytes();
    let reads = view.header.reads as usize;
    let (head, rest) = out.split_at_mut(HEADER);
    let (addresses, rest) = rest.split_at_mut(view.header.writes as usize);
    let values = &view.values[VALUE * reads..];
    head.copy_from_slice(&[c0, c1, c2, c3, m0, m1]);
    addresses.copy_from_slice(&view.addresses[reads..]);
    rest[..values.len()].copy_from_slice(values);
}

pub fn counts_read(file: &[u8], at: usize, last: u32, out: &mut [u64]) -> u32 {
    let Some(out) = out.first_chunk_mut::<COUNTS_FIELDS>() else {
        return Refusal::Buffer.number();
    };
    match file.get(at..) {
        None => return Refusal::Short.number(),
        Some([]) => return END,
        Some(rest) => match Counts::decode(rest) {
            Err(refusal) => return refusal.number(),
            Ok(counts) if last.checked_add(1) != Some(counts.commit) => {
                return Refusal::Sequence.number()
            }
            Ok(counts) => {
                *out = [
                    (at + counts.encode().len()) as u64,
                    counts.writes.len() as u64,
                    counts.commit.into(),
                ];
            }
        },
    }
    OK
}

pub fn counts_entry(file: &[u8], at: usize, writes: u32, i: u32, out: &mut [u64]) -> u32 {
    let Some(out) = out.first_chunk_mut::<2>() else {
        return Refusal::Buffer.number();
    };
    let writes = writes as usize;
    let entry = || {
        let body = file.get(at..)?.get(HEADER..)?.get(..ENTRY * writes)?;
        let (addresses, values) = body.split_at(writes);
        let (values, _) = values.as_chunks();
        let i = i as usize;
        Some((*addresses.get(i)?, u64::from_le_bytes(*values.get(i)?)))
    };
    match entry() {
        Some((address, value)) => {
            *out = [address.into(), value];
            OK
        }
        None => END,
    }
}

/// The counts file of an archive, and how it ends: the number of the first record refused, or 0.
pub fn file_of(archive: &[u8]) -> (Vec<u8>, u32) {
    let mut playback = Playback::FRESH;
    let mut file = Vec::new();
    let mut at = 0;
    while at < archive.len() {
        match playback.record(&archive[at..]) {
            Ok(view) => {
                file.extend(Counts::of(&view).encode());
                at += view.length();
            }
            Err(refusal) => return (file, refusal.number()),
        }
    }
    (file, OK)
}

/// What the viewer prints of an archive, asked by one of its words (docs/COUNTS.md, "The program"): standard output and standard error.
pub fn viewed(archive: &[u8], asked: &str) -> (Vec<u8>, Vec<u8>) {
    let mut output = match asked {
        "--counts" => b"commit writes counter=value\n".to_vec(),
        "--service" => {
            b"commit station kind transaction reads writes rcounter=value wcounter=value\n".to_vec()
        }
        _ => Vec::new(),
    };
    let mut playback = Playback::FRESH;
    let mut at = 0;
    let mut closing = None;
    while at < archive.len() && closing.is_none() {
        match playback.record(&archive[at..]) {
            Ok(view) => {
                match asked {
                    "--counts" => output.extend(counts_line(&Counts::of(&view)).bytes()),
                    "--service" => output.extend(service_line(&view).bytes()),
                    _ => output.extend(Counts::of(&view).encode()),
                }
                at += view.length();
            }
            Err(refusal) => {
                let number = refusal.number();
                closing = Some(format!("refused {number} after {}\n", playback.last));
            }
        }
    }
    let closing = closing.unwrap_or_else(|| format!("end {}\n", playback.last));
    if asked == "--counts-file" {
        return (output, closing.into_bytes());
    }
    output.extend(closing.bytes());
    (output, Vec::new())
}

fn counts_line(counts: &Counts) -> String {
    let mut line = format!("{} {}", counts.commit, counts.writes.len());
    for (address, value) in &counts.writes {
        line += &format!(" {address}={value}");
    }
    line + "\n"
}

fn service_line(view: &View) -> String {
    let header = &view.header;
    let mut line = format!(
        "{} {} {} {} {} {}",
        header.commit, header.station, header.kind, header.transaction, header.reads, header.writes
    );
    for (address, value) in view.reads() {
        line += &format!(" r{address}={value}");
    }
    for (address, value) in view.writes() {
        line += &format!(" w{address}={value}");
    }
    line + "\n"
}
