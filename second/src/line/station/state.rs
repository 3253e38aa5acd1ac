//! A station's state as bytes, from docs/STATE.md: its table of fields, number 1, and what it calls leftovers.

use super::{Callback, Out, Page, Station, Transaction};
use crate::line::little::WORD;
use crate::line::places::Place;
use crate::line::sets::{address, object_of, page_of, rising, Addresses, Writing};
use crate::line::sets::{OBJECTS, PAGES, STATIONS};
use crate::line::{Kind, LIMIT};
use std::array;
use std::collections::BTreeMap;

pub use crate::line::places::station::{Field, LENGTH};

impl Field {
    /// 0 throughout while no transaction is open.
    pub const OF_TRANSACTION: [Field; 3] = [Field::ReadSet, Field::WrittenSet, Field::Wait];

    /// 0 throughout but while a locking or keeping station's is; `Field::Whole` outlives it at a keeping one.
    pub const OF_LOCKS: [Field; 3] = [Field::Whole, Field::Locks, Field::Kept];

    /// What is known of a page beside that it is cached.
    pub const OF_COPIES: [Field; 3] = [Field::Copy, Field::Version, Field::Unavailable];
}

/// Not number 1: "the length is not 8,690, a field is out of the range above ..., or a callback from the station itself
/// is kept".
#[inline]
pub fn valid(bytes: &[u8]) -> bool {
    bytes.len() == LENGTH
        && in_range(bytes)
        && !keeps_its_own(bytes)
        && transaction_fits(bytes)
        && locks_fit(bytes)
}

fn in_range(bytes: &[u8]) -> bool {
    let open = Field::Open.byte(bytes);
    usize::from(Field::Station.byte(bytes)) < STATIONS
        && kind_of(bytes).is_some()
        && open <= 1
        && Field::Wait.byte(bytes) <= COMMIT
        // "not 0 while one is open"
        && (open == 0 || Field::Number.word(bytes, 0) != 0)
}

/// Of the field `Wait`: "1 a read, 2 a write, 3 a commit".
const READ: u8 = 1;
const WRITE: u8 = 2;
const COMMIT: u8 = 3;

fn keeps_its_own(bytes: &[u8]) -> bool {
    let station = Field::Station.byte(bytes);
    Field::Kept.word(bytes, station.into()) != 0
}

/// So many bytes of a field, compared at once.
fn is_0<const N: usize>(bytes: &[u8], field: Field) -> bool {
    bytes[field.start()..][..N] == [0; N]
}

/// `Field::OF_TRANSACTION`
fn is_closed(bytes: &[u8]) -> bool {
    is_0::<PAGES>(bytes, Field::ReadSet)
        && is_0::<PAGES>(bytes, Field::WrittenSet)
        && Field::Wait.byte(bytes) == 0
}

/// `Field::OF_LOCKS`: "0 while no transaction is open, and at a validating station"; of whole pages "but a keeping one's".
fn locks_fit(bytes: &[u8]) -> bool {
    let kind = kind_of(bytes);
    if Field::Open.byte(bytes) == 1 && kind.is_some_and(Kind::locks) {
        return true;
    }
    (Field::Whole.word(bytes, 0) == 0 || kind.is_some_and(Kind::keeps))
        && is_0::<PAGES>(bytes, Field::Locks)
        && is_0::<{ STATIONS * WORD }>(bytes, Field::Kept)
}

pub fn kind_of(bytes: &[u8]) -> Option<Kind> {
    Kind::of(Field::Kind.byte(bytes).into())
}

/// "0 while no transaction is open"; "A read that is out is of an object that is in neither set"; at most 48 in each set, with
/// the object of a read or a write that is out
fn transaction_fits(bytes: &[u8]) -> bool {
    if Field::Open.byte(bytes) == 0 {
        return is_closed(bytes);
    }
    let requested = Field::Address.byte(bytes);
    let seen = |field: &Field| field.sets(bytes, 0).has(requested);
    let fits = match Field::Wait.byte(bytes) {
        READ => ![Field::ReadSet, Field::WrittenSet].iter().any(seen),
        // "a multiple of 8 while a write is out", "not 0 while a write is out"
        WRITE => object_of(requested) == 0 && Field::WaitingSet.byte(bytes) != 0,
        _ => true,
    };
    fits && is_short(bytes, Field::ReadSet, READ) && is_short(bytes, Field::WrittenSet, WRITE)
}

/// Document 02, wish 1: "48 distinct reads and 48 distinct writes", waiting ones counted as recorded.
fn is_short(bytes: &[u8], field: Field, wait: u8) -> bool {
    let set = field.sets(bytes, 0);
    let out = match Field::Wait.byte(bytes) == wait {
        true => requested(bytes, wait),
        false => Addresses::default(),
    };
    set.with(&out).count() <= LIMIT
}

/// What a read or a write that is out is of.
fn requested(bytes: &[u8], wait: u8) -> Addresses {
    let address = Field::Address.byte(bytes);
    let mut requested = Addresses::default();
    match wait {
        READ => requested.insert(address),
        _ => requested.join(page_of(address), Field::WaitingSet.byte(bytes)),
    }
    requested
}

/// What the bytes say; None where they are not valid, or say what a `Station` cannot hold. Leftovers are not looked at.
pub fn decode(bytes: &[u8]) -> Option<Station> {
    let station = near(bytes)?;
    let holds = pages_leave_nothing(bytes)
        && own_values_stand(&station)
        && (!station.kind.locks() || locked_pages_are_cached(&station));
    holds.then_some(station)
}

/// What the bytes say beside copies that a `Station` cannot hold: a call on it tells and sends the right thing, and
/// leaves the right bytes but for `Field::OF_COPIES`. None also for a locked page whose versions stand with no copy.
pub fn near(bytes: &[u8]) -> Option<Station> {
    if !valid(bytes) {
        return None;
    }
    let station = Station {
        number: Field::Station.byte(bytes),
        kind: kind_of(bytes)?,
        latest: Field::Number.word(bytes, 0),
        open: (Field::Open.byte(bytes) == 1).then(|| transaction(bytes)),
        whole: Field::Whole.word(bytes, 0),
        cached: cached(bytes),
        kept: kept(bytes),
    };
    versions_are_cached(&station, bytes).then_some(station)
}

/// A page that is not cached is 0 throughout.
fn pages_leave_nothing(bytes: &[u8]) -> bool {
    let pages = rising(!Field::Cached.word(bytes, 0));
    pages
        .map(|number| page(bytes, number))
        .all(|page| page == Page::default())
}

/// A `Station` lays its own writes into the copy, whatever was there.
fn own_values_stand(station: &Station) -> bool {
    let stands = |(address, value): (&u8, &u64)| {
        let page = station.cached[page_of(*address) as usize].as_ref();
        page.is_none_or(|page| page.values[object_of(*address) as usize] == *value)
    };
    station
        .open
        .as_ref()
        .is_none_or(|open| open.writes.iter().all(stands))
}

/// A local write under a lock changes a copy, so there is one.
fn locked_pages_are_cached(station: &Station) -> bool {
    let (locked, whole) = station.locks();
    (locked.pages() | whole) & !station.cached() == 0
}

/// A write under a lock keeps the version of the copy, and a `Station` without the copy has none.
fn versions_are_cached(station: &Station, bytes: &[u8]) -> bool {
    let (locked, whole) = station.locks();
    let mut beside = rising((locked.pages() | whole) & !station.cached());
    beside.all(|number| page(bytes, number).versions == [0; OBJECTS])
}

/// The open transaction.
fn transaction(bytes: &[u8]) -> Transaction {
    Transaction {
        reads: values(bytes, Field::ReadSet, Field::ReadValue),
        writes: values(bytes, Field::WrittenSet, Field::WrittenValue),
        seen: seen(bytes),
        locked: Field::Locks.sets(bytes, 0),
        out: out(bytes),
    }
}

/// The values that stand for the members of a set.
fn values(bytes: &[u8], set: Field, value: Field) -> BTreeMap<u8, u64> {
    let set = set.sets(bytes, 0);
    (0..=u8::MAX)
        .filter(|address| set.has(*address))
        .map(|address| (address, value.long(bytes, address.into())))
        .collect()
}

/// The versions that stand for what was read or written.
fn seen(bytes: &[u8]) -> BTreeMap<u8, u32> {
    let used = Field::ReadSet
        .sets(bytes, 0)
        .with(&Field::WrittenSet.sets(bytes, 0));
    (0..=u8::MAX)
        .filter(|address| used.has(*address))
        .map(|address| (address, Field::Seen.word(bytes, address.into())))
        .collect()
}

fn out(bytes: &[u8]) -> Option<Out> {
    let address = Field::Address.byte(bytes);
    match Field::Wait.byte(bytes) {
        0 => None,
        READ => Some(Out::Read(address)),
        WRITE => writing(bytes).map(Out::Write),
        _ => Some(Out::Commit),
    }
}

fn writing(bytes: &[u8]) -> Option<Writing> {
    let page = page_of(Field::Address.byte(bytes));
    let values = array::from_fn(|object| Field::WaitingValues.long(bytes, object));
    Writing::of(page.into(), Field::WaitingSet.byte(bytes).into(), &values)
}

fn cached(bytes: &[u8]) -> [Option<Page>; PAGES] {
    let mut cached = [const { None }; PAGES];
    for number in rising(Field::Cached.word(bytes, 0)) {
        cached[usize::from(number)] = Some(page(bytes, number));
    }
    cached
}

fn page(bytes: &[u8], number: u8) -> Page {
    Page {
        versions: array::from_fn(|object| {
            Field::Version.word(bytes, address(number, object as u8).into())
        }),
        unavailable: Field::Unavailable.sets(bytes, 0).on(number),
        values: array::from_fn(|object| {
            Field::Copy.long(bytes, address(number, object as u8).into())
        }),
    }
}

/// "by requester: the transaction of the callback kept for it, 0 for none"
fn kept(bytes: &[u8]) -> BTreeMap<u8, Callback> {
    let callback = |requester: u8| Callback {
        transaction: Field::Kept.word(bytes, requester.into()),
        objects: Field::Named.sets(bytes, requester.into()),
    };
    (0..STATIONS as u8)
        .map(|requester| (requester, callback(requester)))
        .filter(|(_, callback)| callback.transaction != 0)
        .collect()
}

/// The station's bytes, leftovers 0.
pub fn encode(station: &Station) -> Vec<u8> {
    let mut bytes = vec![0; LENGTH];
    lay(station, &mut bytes);
    bytes
}

/// Lays the station's bytes over others of a state: "what no longer counts keeps its bytes".
pub fn lay(station: &Station, bytes: &mut [u8]) {
    Field::Station.put_byte(bytes, station.number);
    Field::Kind.put_byte(bytes, station.kind as u8);
    Field::Open.put_byte(bytes, station.open.is_some().into());
    Field::Number.put_word(bytes, 0, station.latest);
    Field::Whole.put_word(bytes, 0, station.whole);
    match &station.open {
        Some(transaction) => lay_transaction(transaction, bytes),
        None => lay_transaction(&Transaction::default(), bytes),
    }
    Field::Cached.put_word(bytes, 0, station.cached());
    let nothing = Page::default();
    for (number, page) in (0..).zip(&station.cached) {
        // "A dropped page leaves nothing: its versions, values and unavailable set become 0."
        lay_page(number, page.as_ref().unwrap_or(&nothing), bytes);
    }
    lay_kept(&station.kept, bytes);
}

fn lay_transaction(transaction: &Transaction, bytes: &mut [u8]) {
    lay_values(&transaction.reads, Field::ReadSet, Field::ReadValue, bytes);
    let writes = &transaction.writes;
    lay_values(writes, Field::WrittenSet, Field::WrittenValue, bytes);
    for (address, version) in &transaction.seen {
        Field::Seen.put_word(bytes, (*address).into(), *version);
    }
    Field::Locks.put_sets(bytes, 0, &transaction.locked);
    lay_out(transaction.out.as_ref(), bytes);
}

fn lay_values(values: &BTreeMap<u8, u64>, set: Field, value: Field, bytes: &mut [u8]) {
    set.put_sets(bytes, 0, &values.keys().copied().collect());
    for (address, number) in values {
        value.put_long(bytes, (*address).into(), *number);
    }
}

fn lay_out(out: Option<&Out>, bytes: &mut [u8]) {
    let wait = match out {
        None => 0,
        Some(Out::Read(address)) => {
            Field::Address.put_byte(bytes, *address);
            READ
        }
        Some(Out::Write(writing)) => {
            Field::Address.put_byte(bytes, address(writing.page(), 0));
            Field::WaitingSet.put_byte(bytes, writing.objects());
            for (address, value) in writing.entries() {
                Field::WaitingValues.put_long(bytes, object_of(address).into(), value);
            }
            WRITE
        }
        Some(Out::Commit) => COMMIT,
    };
    Field::Wait.put_byte(bytes, wait);
}

fn lay_page(number: u8, page: &Page, bytes: &mut [u8]) {
    for (object, version) in page.versions.into_iter().enumerate() {
        Field::Version.put_word(bytes, OBJECTS * usize::from(number) + object, version);
    }
    bytes[Field::Unavailable.start() + usize::from(number)] = page.unavailable;
    for (object, value) in page.values.into_iter().enumerate() {
        Field::Copy.put_long(bytes, OBJECTS * usize::from(number) + object, value);
    }
}

fn lay_kept(kept: &BTreeMap<u8, Callback>, bytes: &mut [u8]) {
    for requester in 0..STATIONS {
        let callback = kept.get(&(requester as u8));
        let transaction = callback.map_or(0, |callback| callback.transaction);
        Field::Kept.put_word(bytes, requester, transaction);
        if let Some(callback) = callback {
            Field::Named.put_sets(bytes, requester, &callback.objects);
        }
    }
}
