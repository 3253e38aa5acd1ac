//! Messages up and down: their bytes, and numbers 2 to 5.

use super::little::{word, WORD};
use super::places::Place;
use super::sets::{address, object_of, page_bit, page_of, Addresses, PageSet};
use super::sets::{ObjectSet, OBJECTS, PAGES, STATIONS};
use super::{Cause, Kind, Number, LIMIT};
use crate::record::{self, Record};

pub use super::places::message::{Field, LENGTH};

/// A commit without entries.
pub const SHORTEST_COMMIT: usize = LENGTH + record::HEADER;

/// What each entry adds: its version, and its address and value in the record.
const OF_ENTRY: usize = WORD + record::ENTRY;

/// "A commit is then 144 + 4 × (n + m) bytes and the record": its length says where the record stands.
pub fn record_place(length: usize) -> usize {
    let entries = length.saturating_sub(SHORTEST_COMMIT) / OF_ENTRY;
    LENGTH + WORD * entries
}

/// The length of a commit with so many entries.
pub const fn commit_length(entries: usize) -> usize {
    SHORTEST_COMMIT + OF_ENTRY * entries
}

const COMMIT: u8 = 3;
pub const INVALIDATE: u8 = 23;

/// What a station sends: "Kinds 1 to 8 go to the server".
#[derive(Clone, Debug, PartialEq, Eq)]
pub enum Up {
    Read {
        address: u8,
        transaction: u32,
    },
    Write {
        page: u8,
        /// "Let kind 2 carry an object set in byte 16"
        objects: ObjectSet,
        transaction: u32,
    },
    Commit(Box<Commit>),
    Abort {
        transaction: u32,
    },
    Purge {
        page: u8,
    },
    Busy {
        requester: u8,
        transaction: u32,
    },
    Done {
        requester: u8,
        transaction: u32,
        dropped: PageSet,
    },
    WrittenSet {
        page: u8,
        transaction: u32,
        written: ObjectSet,
    },
}

/// A commit: its page set, versions and record; station and transaction stand in the record. "A commit carries one version
/// for each entry of its record, in record order".
#[derive(Clone, Debug, PartialEq, Eq)]
pub struct Commit {
    pub used: PageSet,
    pub versions: Vec<u32>,
    pub record: Record,
}

/// What the server sends: "and 16 to 23 to stations".
#[derive(Clone, Debug, PartialEq, Eq)]
pub enum Down {
    Page(PageMessage),
    DeEscalate {
        page: u8,
        transaction: u32,
    },
    Callback {
        requester: u8,
        transaction: u32,
        objects: Addresses,
    },
    Committed {
        transaction: u32,
        commit: u32,
    },
    Aborted {
        transaction: u32,
        cause: Cause,
    },
    Invalidate {
        objects: Addresses,
    },
}

/// 16, 17 or 18.
#[derive(Clone, Debug, PartialEq, Eq)]
pub struct PageMessage {
    pub grant: Grant,
    /// Of a 17 or 18 the page's first: "byte 3 is then 0, as in its 17 or 18".
    pub address: u8,
    pub transaction: u32,
    pub versions: [u32; OBJECTS],
    pub unavailable: ObjectSet,
    pub values: [u64; OBJECTS],
}

/// The lock that comes with a page.
#[derive(Clone, Copy, Debug, PartialEq, Eq)]
#[repr(u8)]
pub enum Grant {
    Page = 16,
    Object = 17,
    Whole = 18,
}

/// The fields of a message, as `Field` has their places.
#[derive(Clone, Debug, Default, PartialEq, Eq)]
struct Fields {
    kind: u8,
    station: u8,
    byte_2: u8,
    byte_3: u8,
    transaction: u32,
    pages: u32,
    number: u32,
    sets: [u8; PAGES],
    values: [u64; OBJECTS],
    versions: [u32; OBJECTS],
}

/// Which fields a kind names, and as what.
struct Names {
    byte_2: Second,
    byte_3: Third,
    transaction: bool,
    pages: bool,
    commit: bool,
    sets: Sets,
    /// Values and versions.
    page: bool,
}

#[derive(PartialEq)]
enum Second {
    Unnamed,
    Page,
    Requester,
}

#[derive(PartialEq)]
enum Third {
    Unnamed,
    Object,
    Cause,
}

#[derive(PartialEq)]
enum Sets {
    Unnamed,
    /// "one set of a single page: byte 16"
    One,
    /// The same; "the empty set ... is number 4".
    NotEmpty,
    ByPage,
}

const NOTHING: Names = Names {
    byte_2: Second::Unnamed,
    byte_3: Third::Unnamed,
    transaction: false,
    pages: false,
    commit: false,
    sets: Sets::Unnamed,
    page: false,
};

const TRANSACTION: Names = Names {
    transaction: true,
    ..NOTHING
};

/// The list of kinds, up and down, with what each names.
fn names(kind: u8) -> Option<Names> {
    Some(match kind {
        1 => Names {
            byte_2: Second::Page,
            byte_3: Third::Object,
            ..TRANSACTION
        },
        2 => Names {
            byte_2: Second::Page,
            sets: Sets::NotEmpty,
            ..TRANSACTION
        },
        3 => Names {
            pages: true,
            ..TRANSACTION
        },
        4 => TRANSACTION,
        5 => Names {
            byte_2: Second::Page,
            ..NOTHING
        },
        6 => Names {
            byte_2: Second::Requester,
            ..TRANSACTION
        },
        7 => Names {
            byte_2: Second::Requester,
            pages: true,
            ..TRANSACTION
        },
        8 => Names {
            byte_2: Second::Page,
            sets: Sets::One,
            ..TRANSACTION
        },
        16 => Names {
            byte_2: Second::Page,
            byte_3: Third::Object,
            sets: Sets::One,
            page: true,
            ..TRANSACTION
        },
        17 | 18 => Names {
            byte_2: Second::Page,
            sets: Sets::One,
            page: true,
            ..TRANSACTION
        },
        19 => Names {
            byte_2: Second::Page,
            ..TRANSACTION
        },
        20 => Names {
            byte_2: Second::Requester,
            sets: Sets::ByPage,
            ..TRANSACTION
        },
        21 => Names {
            commit: true,
            ..TRANSACTION
        },
        22 => Names {
            byte_3: Third::Cause,
            ..TRANSACTION
        },
        23 => Names {
            sets: Sets::ByPage,
            ..NOTHING
        },
        _ => return None,
    })
}

impl Names {
    /// Number 4, all but a callback's requester.
    fn fit(&self, fields: &Fields) -> bool {
        let byte_2 = match self.byte_2 {
            Second::Unnamed => fields.byte_2 == 0,
            Second::Page => usize::from(fields.byte_2) < PAGES,
            Second::Requester => usize::from(fields.byte_2) < STATIONS,
        };
        let byte_3 = match self.byte_3 {
            Third::Unnamed => fields.byte_3 == 0,
            Third::Object => usize::from(fields.byte_3) < OBJECTS,
            Third::Cause => Cause::of(fields.byte_3).is_some(),
        };
        // reading 4: "Bytes 17 to 47 are unnamed, so 0, where a kind names one set of a single page"
        let sets = match self.sets {
            Sets::Unnamed => fields.sets == [0; PAGES],
            Sets::One => fields.sets[1..] == [0; PAGES - 1],
            Sets::NotEmpty => fields.sets[0] != 0 && fields.sets[1..] == [0; PAGES - 1],
            Sets::ByPage => true,
        };
        usize::from(fields.station) < STATIONS
            && byte_2
            && byte_3
            && (fields.transaction != 0) == self.transaction
            && (self.pages || fields.pages == 0)
            && (fields.number != 0) == self.commit
            && sets
            // reading 2: version 0 is allowed in 16 to 18
            && (self.page || fields.values == [0; OBJECTS] && fields.versions == [0; OBJECTS])
    }
}

impl Fields {
    fn read(bytes: &[u8; LENGTH]) -> Fields {
        Fields {
            kind: Field::Kind.byte(bytes),
            station: Field::Station.byte(bytes),
            byte_2: Field::PageOrRequester.byte(bytes),
            byte_3: Field::ObjectOrCause.byte(bytes),
            transaction: Field::Transaction.word(bytes, 0),
            pages: Field::Pages.word(bytes, 0),
            number: Field::Commit.word(bytes, 0),
            sets: Field::Sets.sets(bytes, 0).0,
            values: std::array::from_fn(|i| Field::Values.long(bytes, i)),
            versions: std::array::from_fn(|i| Field::Versions.word(bytes, i)),
        }
    }

    fn bytes(&self) -> Vec<u8> {
        let mut bytes = Vec::with_capacity(LENGTH);
        bytes.extend([self.kind, self.station, self.byte_2, self.byte_3]);
        bytes.extend(self.transaction.to_le_bytes());
        bytes.extend(self.pages.to_le_bytes());
        bytes.extend(self.number.to_le_bytes());
        bytes.extend(self.sets);
        for value in self.values {
            bytes.extend(value.to_le_bytes());
        }
        for version in self.versions {
            bytes.extend(version.to_le_bytes());
        }
        bytes
    }

    /// "The set of a single page" stands in byte 16.
    fn one_set(set: ObjectSet) -> [u8; PAGES] {
        let mut sets = [0; PAGES];
        sets[0] = set;
        sets
    }

    fn address(&self) -> u8 {
        address(self.byte_2, self.byte_3)
    }

    /// Page, object and transaction of a request or a page.
    fn on_object(kind: u8, address: u8, transaction: u32) -> Fields {
        Fields {
            kind,
            byte_2: page_of(address),
            byte_3: object_of(address),
            transaction,
            ..Fields::default()
        }
    }

    /// Page or requester, and a transaction.
    fn with_second(kind: u8, byte_2: u8, transaction: u32) -> Fields {
        Fields {
            kind,
            byte_2,
            transaction,
            ..Fields::default()
        }
    }
}

/// Number 2: "every message is 144 bytes", "A commit is then 144 + 4 × (n + m) bytes and the record"; reading 1.
fn length_fits(bytes: &[u8]) -> bool {
    match bytes.first() {
        None => false,
        Some(&COMMIT) => {
            let record = bytes.get(record_place(bytes.len())..).unwrap_or(&[]);
            let whole = bytes.len() >= SHORTEST_COMMIT
                && (bytes.len() - SHORTEST_COMMIT).is_multiple_of(OF_ENTRY);
            whole && record::claimed_length(record) == Some(record.len())
        }
        Some(_) => bytes.len() == LENGTH,
    }
}

/// Numbers 2, 3 and 4, for an end that takes these kinds.
fn fields_of(bytes: &[u8], taken: std::ops::RangeInclusive<u8>) -> Result<Fields, Number> {
    if !length_fits(bytes) {
        return Err(Number::Length);
    }
    let fields = Fields::read(bytes.first_chunk().expect("a whole message"));
    let names = names(fields.kind).filter(|_| taken.contains(&fields.kind));
    if !names.ok_or(Number::Kind)?.fit(&fields) {
        return Err(Number::Range);
    }
    Ok(fields)
}

impl Up {
    /// The sender and its message; numbers 2 to 5.
    pub fn decode(bytes: &[u8], kinds: &[Kind; STATIONS]) -> Result<(u8, Up), Number> {
        let fields = fields_of(bytes, 1..=8)?;
        let transaction = fields.transaction;
        let message = match fields.kind {
            1 => Up::Read {
                address: fields.address(),
                transaction,
            },
            2 => Up::Write {
                page: fields.byte_2,
                objects: fields.sets[0],
                transaction,
            },
            COMMIT => {
                let kind = kinds[fields.station as usize];
                Up::Commit(Box::new(Commit::decode(&fields, bytes, kind)?))
            }
            4 => Up::Abort { transaction },
            5 => Up::Purge {
                page: fields.byte_2,
            },
            6 => Up::Busy {
                requester: fields.byte_2,
                transaction,
            },
            7 => Up::Done {
                requester: fields.byte_2,
                transaction,
                dropped: fields.pages,
            },
            _ => Up::WrittenSet {
                page: fields.byte_2,
                transaction,
                written: fields.sets[0],
            },
        };
        Ok((fields.station, message))
    }

    pub fn encode(&self, station: u8) -> Vec<u8> {
        let mut bytes = Fields {
            station,
            ..self.fields()
        }
        .bytes();
        if let Up::Commit(commit) = self {
            commit.append(&mut bytes);
        }
        bytes
    }

    fn fields(&self) -> Fields {
        match *self {
            Up::Read {
                address,
                transaction,
            } => Fields::on_object(1, address, transaction),
            Up::Write {
                page,
                objects,
                transaction,
            } => Fields {
                sets: Fields::one_set(objects),
                ..Fields::with_second(2, page, transaction)
            },
            Up::Commit(ref commit) => Fields {
                kind: COMMIT,
                transaction: commit.record.transaction,
                pages: commit.used,
                ..Fields::default()
            },
            Up::Abort { transaction } => Fields::with_second(4, 0, transaction),
            Up::Purge { page } => Fields::with_second(5, page, 0),
            Up::Busy {
                requester,
                transaction,
            } => Fields::with_second(6, requester, transaction),
            Up::Done {
                requester,
                transaction,
                dropped,
            } => Fields {
                pages: dropped,
                ..Fields::with_second(7, requester, transaction)
            },
            Up::WrittenSet {
                page,
                transaction,
                written,
            } => Fields {
                sets: Fields::one_set(written),
                ..Fields::with_second(8, page, transaction)
            },
        }
    }

    /// The transaction of a 1, 2, 3 or 4: the sender's own.
    pub fn own_transaction(&self) -> Option<u32> {
        match self {
            Up::Read { transaction, .. }
            | Up::Write { transaction, .. }
            | Up::Abort { transaction } => Some(*transaction),
            Up::Commit(commit) => Some(commit.record.transaction),
            _ => None,
        }
    }
}

impl Commit {
    /// All versions 0.
    pub fn of(record: Record) -> Commit {
        let entries = record.reads.len() + record.writes.len();
        let mut commit = Commit {
            used: 0,
            versions: vec![0; entries],
            record,
        };
        commit.used = commit.wanted().pages();
        commit
    }

    /// Number 5: "the layout is broken ..., a version that must be 0 isn't, or a commit's record disagrees with
    /// message or server on station, kind, transaction or pages used".
    fn decode(fields: &Fields, bytes: &[u8], kind: Kind) -> Result<Commit, Number> {
        let (before, record) = bytes.split_at(record_place(bytes.len()));
        let commit = Commit {
            used: fields.pages,
            versions: versions_of(&before[LENGTH..]),
            record: Record::decode(record).map_err(|_| Number::Record)?,
        };
        if commit.is_short() && commit.agrees(fields, kind) && commit.versions_fit(kind) {
            Ok(commit)
        } else {
            Err(Number::Record)
        }
    }

    /// Document 02, wish 1: "The server gives number 5 to n or m above 48."
    fn is_short(&self) -> bool {
        self.record.reads.len() <= LIMIT && self.record.writes.len() <= LIMIT
    }

    fn agrees(&self, fields: &Fields, kind: Kind) -> bool {
        // "commit number (4; 0 on the way up)"
        self.record.commit == 0
            && self.record.station == fields.station
            && self.record.kind == kind as u8
            && self.record.transaction == fields.transaction
            && self.wanted().pages() == self.used
    }

    /// "from a locking station all are 0"
    fn versions_fit(&self, kind: Kind) -> bool {
        !kind.locks() || self.versions.iter().all(|version| *version == 0)
    }

    /// The addresses of its entries with their versions: an object that is read and written has two.
    pub fn versioned(&self) -> impl Iterator<Item = (u8, u32)> + '_ {
        let entries = self.record.reads.iter().chain(&self.record.writes);
        entries
            .map(|(address, _)| *address)
            .zip(self.versions.iter().copied())
    }

    fn append(&self, bytes: &mut Vec<u8>) {
        for version in &self.versions {
            bytes.extend(version.to_le_bytes());
        }
        bytes.extend(self.record.encode());
    }

    pub fn written(&self) -> Addresses {
        self.record
            .writes
            .iter()
            .map(|(address, _)| *address)
            .collect()
    }

    /// "a commit wants all that it read or wrote"
    pub fn wanted(&self) -> Addresses {
        let read: Addresses = self
            .record
            .reads
            .iter()
            .map(|(address, _)| *address)
            .collect();
        read.with(&self.written())
    }
}

fn versions_of(bytes: &[u8]) -> Vec<u32> {
    bytes.chunks(WORD).map(|version| word(version, 0)).collect()
}

impl Down {
    /// The station named and the message, at the station whose step runs; numbers 2 to 4.
    pub fn decode(bytes: &[u8], at: u8) -> Result<(u8, Down), Number> {
        let fields = fields_of(bytes, 16..=23)?;
        let transaction = fields.transaction;
        let message = match fields.kind {
            16 => Down::page(Grant::Page, &fields),
            17 => Down::page(Grant::Object, &fields),
            18 => Down::page(Grant::Whole, &fields),
            19 => Down::DeEscalate {
                page: fields.byte_2,
                transaction,
            },
            20 => Down::Callback {
                requester: another(fields.byte_2, at)?,
                transaction,
                objects: Addresses(fields.sets),
            },
            21 => Down::Committed {
                transaction,
                commit: fields.number,
            },
            22 => Down::Aborted {
                transaction,
                cause: Cause::of(fields.byte_3).ok_or(Number::Range)?,
            },
            _ => Down::Invalidate {
                objects: Addresses(fields.sets),
            },
        };
        Ok((fields.station, message))
    }

    fn page(grant: Grant, fields: &Fields) -> Down {
        Down::Page(PageMessage {
            grant,
            address: fields.address(),
            transaction: fields.transaction,
            versions: fields.versions,
            unavailable: fields.sets[0],
            values: fields.values,
        })
    }

    pub fn encode(&self, station: u8) -> Vec<u8> {
        Fields {
            station,
            ..self.fields()
        }
        .bytes()
    }

    fn fields(&self) -> Fields {
        match *self {
            Down::Page(ref page) => Fields {
                sets: Fields::one_set(page.unavailable),
                values: page.values,
                versions: page.versions,
                ..Fields::on_object(page.grant as u8, page.address, page.transaction)
            },
            Down::DeEscalate { page, transaction } => Fields::with_second(19, page, transaction),
            Down::Callback {
                requester,
                transaction,
                objects,
            } => Fields {
                sets: objects.0,
                ..Fields::with_second(20, requester, transaction)
            },
            Down::Committed {
                transaction,
                commit,
            } => Fields {
                number: commit,
                ..Fields::with_second(21, 0, transaction)
            },
            Down::Aborted { transaction, cause } => Fields {
                byte_3: cause as u8,
                ..Fields::with_second(22, 0, transaction)
            },
            Down::Invalidate { objects } => Fields {
                sets: objects.0,
                ..Fields::with_second(23, 0, 0)
            },
        }
    }
}

/// "a callback's requester is the station it comes to" is out of range; reading 3.
fn another(requester: u8, at: u8) -> Result<u8, Number> {
    if requester == at {
        return Err(Number::Range);
    }
    Ok(requester)
}

/// Pages of these addresses.
pub fn pages_of(addresses: impl Iterator<Item = u8>) -> PageSet {
    addresses.fold(0, |pages, address| pages | page_bit(page_of(address)))
}
