//! The server's state as bytes, from docs/STATE.md: its table of fields, number 1, and what it calls leftovers.

use super::{Callbacks, Request, Seen, Server, Waiter, WholeLock};
use crate::line::message::{pages_of, Commit, Up};
use crate::line::places::Place;
use crate::line::sets::{address, object_bit, object_of, page_bit, page_of, rising};
use crate::line::sets::{Addresses, ADDRESSES, OBJECTS, PAGES, STATIONS};
use crate::line::{Kind, LIMIT};
use crate::record::Record;
use std::array;

pub use crate::line::places::server::{Field, LENGTH};

impl Field {
    /// Bytes that have a range of their own, one for each station: the highest that is in it.
    pub const RANGES: [(Field, u8); 5] = [
        (Field::Kind, Kind::Keeping as u8),
        (Field::Want, 3),
        (Field::Called, 1),
        (Field::Unfinished, 1),
        (Field::AgeKept, 1),
    ];
}

/// "below 2^63"
pub const COUNTERS_END: u64 = 1 << 63;

/// Not number 1: "the length is not 53,464; a field is out of the range above; beside a whole lock an object of the page
/// is locked by another; two stations whose transactions are unfinished or that keep their age have one age; or two
/// waiting stations have one arrival".
#[inline]
pub fn valid(bytes: &[u8]) -> bool {
    bytes.len() == LENGTH
        && in_range(bytes)
        && (0..STATIONS).all(|station| station_fits(bytes, station))
        && (0..PAGES).all(|page| locks_fit(bytes, page))
        && asked_are_held(bytes)
        && apart(bytes, &[Field::Unfinished, Field::AgeKept], Field::Age)
        && apart(bytes, &[Field::Want], Field::Arrival)
}

fn in_range(bytes: &[u8]) -> bool {
    // one test behind the loop is faster than one in it
    let highest = |field: Field| {
        let bytes = &bytes[field.start()..][..STATIONS];
        bytes.iter().fold(0, |a, b| a.max(*b))
    };
    Field::RANGES
        .into_iter()
        .all(|(field, most)| highest(field) <= most)
        && Field::NextAge.long(bytes, 0) < COUNTERS_END
        && Field::NextArrival.long(bytes, 0) < COUNTERS_END
}

fn waits(bytes: &[u8], station: usize) -> bool {
    Field::Want.byte_of(bytes, station) != 0
}

fn works(bytes: &[u8], station: usize) -> bool {
    Field::Unfinished.byte_of(bytes, station) != 0
}

pub fn kind_of(bytes: &[u8], station: usize) -> Option<Kind> {
    Kind::of(Field::Kind.byte_of(bytes, station).into())
}

fn locks(bytes: &[u8], station: usize) -> bool {
    kind_of(bytes, station).is_some_and(Kind::locks)
}

fn keeps(bytes: &[u8], station: usize) -> bool {
    kind_of(bytes, station).is_some_and(Kind::keeps)
}

fn station_fits(bytes: &[u8], station: usize) -> bool {
    // "below the next age"; of latest "not 0 while that is unfinished"
    Field::Age.long(bytes, station) < Field::NextAge.long(bytes, 0)
        && (!works(bytes, station) || Field::Latest.word(bytes, station) != 0)
        && entry_fits(bytes, station)
        && callbacks_fit(bytes, station)
}

/// "a station that waits for nothing has an empty entry, one that waits has the entry that its message made"
fn entry_fits(bytes: &[u8], station: usize) -> bool {
    let arrival = Field::Arrival.long(bytes, station);
    let request = Field::Request.byte_of(bytes, station);
    let sets = |field: Field| &bytes[field.start() + PAGES * station..][..PAGES];
    let only = |field: Field| sets(field) == Addresses::one(request).0;
    let nothing = |field: Field| sets(field) == [0; PAGES];
    // document 02, wish 1: else its record would not fit
    let short = |field: Field| field.sets(bytes, station).count() <= LIMIT;
    let waits = || works(bytes, station) && arrival < Field::NextArrival.long(bytes, 0);
    let asks = || waits() && locks(bytes, station);
    match Field::Want.byte_of(bytes, station) {
        0 => arrival == 0 && request == 0 && nothing(Field::ReadSet) && nothing(Field::WrittenSet),
        1 => asks() && only(Field::ReadSet) && nothing(Field::WrittenSet),
        2 => asks() && is_write(bytes, station) && nothing(Field::ReadSet),
        _ => {
            waits()
                && !locks(bytes, station)
                && request == 0
                && Field::Work.word(bytes, station) == Field::Latest.word(bytes, station)
                && short(Field::ReadSet)
                && short(Field::WrittenSet)
        }
    }
}

/// "of a waiting write objects of the requested page alone, at least one", the request "a multiple of 8 while a write does"
fn is_write(bytes: &[u8], station: usize) -> bool {
    let request = Field::Request.byte_of(bytes, station);
    let writes = Field::WrittenSet.sets(bytes, station);
    object_of(request) == 0 && writes.pages() == page_bit(page_of(request))
}

/// Of pend "other, locking stations; 0 unless called is 1", of busy "a part of pend".
fn callbacks_fit(bytes: &[u8], station: usize) -> bool {
    let owed = Field::Pend.byte_of(bytes, station);
    let busy = Field::Busy.byte_of(bytes, station);
    if Field::Called.byte_of(bytes, station) == 0 {
        return owed == 0 && busy == 0;
    }
    let owes = |other: &usize| owed >> other & 1 == 1;
    Field::Want.byte_of(bytes, station) >= 2
        && busy & !owed == 0
        && (0..STATIONS)
            .filter(owes)
            .all(|other| other != station && locks(bytes, other))
}

/// "a locking or keeping station whose transaction is unfinished; 0 or the page's holder where the page is locked whole"
fn locks_fit(bytes: &[u8], page: usize) -> bool {
    let first = Field::Lock.start() + OBJECTS * page;
    let objects = &bytes[first..first + OBJECTS];
    // most pages have none
    let held = objects == [0; OBJECTS] || objects.iter().all(|lock| holds(bytes, *lock));
    let whole = Field::Whole.byte_of(bytes, page);
    held && given(bytes, page)
        && (whole == 0 || objects.iter().all(|lock| *lock == 0 || *lock == whole))
}

/// The whole lock: "a locking station whose transaction is unfinished, or a keeping one"; its 18's transaction: "the holder's
/// latest; of a keeping holder any from 1 to its latest; 0 where the page is not locked whole".
fn given(bytes: &[u8], page: usize) -> bool {
    let given = Field::WholeFor.word(bytes, page);
    let Some(station) = station_of(Field::Whole.byte_of(bytes, page)).map(usize::from) else {
        return given == 0;
    };
    if station >= STATIONS || !locks(bytes, station) {
        return false;
    }
    let latest = Field::Latest.word(bytes, station);
    match keeps(bytes, station) {
        true => (1..=latest).contains(&given),
        false => works(bytes, station) && given == latest,
    }
}

/// Nobody, or one that may hold a lock.
fn holds(bytes: &[u8], holder: u8) -> bool {
    station_of(holder).is_none_or(|station| {
        let station = usize::from(station);
        station < STATIONS && locks(bytes, station) && works(bytes, station)
    })
}

/// "0 for none, i + 1 for station i"
fn station_of(holder: u8) -> Option<u8> {
    holder.checked_sub(1)
}

/// No two stations that count, one of these bytes not being 0, have one number.
fn apart(bytes: &[u8], counts: &[Field], number: Field) -> bool {
    let counted = |station: &usize| {
        counts
            .iter()
            .any(|field| field.byte_of(bytes, *station) != 0)
    };
    let equal = |a: usize, b: usize| number.long(bytes, a) == number.long(bytes, b);
    (0..STATIONS)
        .filter(counted)
        .all(|a| !(0..a).filter(counted).any(|b| equal(a, b)))
}

/// What the bytes say; None where they are not valid. Leftovers are not looked at.
pub fn decode(bytes: &[u8]) -> Option<Server> {
    if !valid(bytes) {
        return None;
    }
    let kinds: Vec<Kind> = (0..STATIONS).filter_map(|i| kind_of(bytes, i)).collect();
    let kinds: [Kind; STATIONS] = kinds.try_into().ok()?;
    Some(Server {
        kinds,
        last: Field::Last.word(bytes, 0),
        values: array::from_fn(|address| Field::Value.long(bytes, address)),
        versions: array::from_fn(|address| Field::Version.word(bytes, address)),
        seen: array::from_fn(|station| seen(bytes, station)),
        next_age: Field::NextAge.long(bytes, 0),
        next_arrival: Field::NextArrival.long(bytes, 0),
        locks: array::from_fn(|station| locked(bytes, station as u8)),
        whole: array::from_fn(|page| whole(bytes, page)),
        listed: array::from_fn(|station| Field::Listed.word(bytes, station)),
        waiting: waiting(bytes, &kinds),
    })
}

fn seen(bytes: &[u8], station: usize) -> Seen {
    Seen {
        latest: Field::Latest.word(bytes, station),
        age: Field::Age.long(bytes, station),
        unfinished: Field::Unfinished.byte_of(bytes, station) != 0,
        kept: Field::AgeKept.byte_of(bytes, station) != 0,
    }
}

fn locked(bytes: &[u8], station: u8) -> Addresses {
    let own =
        |address: &u8| station_of(Field::Lock.byte_of(bytes, (*address).into())) == Some(station);
    (0..=u8::MAX).filter(own).collect()
}

fn whole(bytes: &[u8], page: usize) -> Option<WholeLock> {
    let holder = station_of(Field::Whole.byte_of(bytes, page))?;
    Some(WholeLock {
        holder,
        asked: Field::Asked.word(bytes, 0) & page_bit(page as u8) != 0,
        transaction: Field::WholeFor.word(bytes, page),
    })
}

/// "of pages that are locked whole"
fn asked_are_held(bytes: &[u8]) -> bool {
    rising(Field::Asked.word(bytes, 0)).all(|page| whole(bytes, page.into()).is_some())
}

/// The waiting list, by arrival.
fn waiting(bytes: &[u8], kinds: &[Kind; STATIONS]) -> Vec<Waiter> {
    let waits = |station: &usize| waits(bytes, *station);
    let waiter = |station: usize| waiter(bytes, station, kinds[station]);
    let mut waiting: Vec<Waiter> = (0..STATIONS).filter(waits).map(waiter).collect();
    waiting.sort_by_key(|waiter| waiter.arrival);
    waiting
}

fn waiter(bytes: &[u8], station: usize, kind: Kind) -> Waiter {
    let number = station as u8;
    let requested = Field::Request.byte_of(bytes, station);
    let waiter = match Field::Want.byte_of(bytes, station) {
        1 => Waiter::read(number, requested),
        2 => {
            let page = page_of(requested);
            let objects = Field::WrittenSet.sets(bytes, station).on(page);
            Waiter::write(number, page, objects)
        }
        _ => Waiter::commit(number, Box::new(commit(bytes, station, kind))),
    };
    let callbacks = Callbacks {
        owed: Field::Pend.byte_of(bytes, station),
        busy: Field::Busy.byte_of(bytes, station),
    };
    Waiter {
        arrival: Field::Arrival.long(bytes, station),
        callbacks: (Field::Called.byte_of(bytes, station) != 0).then_some(callbacks),
        ..waiter
    }
}

fn commit(bytes: &[u8], station: usize, kind: Kind) -> Commit {
    let reads = values(bytes, station, Field::ReadSet, Field::ReadValue);
    let writes = values(bytes, station, Field::WrittenSet, Field::WrittenValue);
    let version = |field: Field, entries: &[(u8, u64)]| -> Vec<u32> {
        let of = |(address, _): &(u8, u64)| field.word(bytes, place(station, *address));
        entries.iter().map(of).collect()
    };
    Commit {
        used: pages_of(reads.iter().chain(&writes).map(|(address, _)| *address)),
        versions: [
            version(Field::ReadVersion, &reads),
            version(Field::WrittenVersion, &writes),
        ]
        .concat(),
        record: Record {
            reads,
            writes,
            commit: 0,
            transaction: Field::Work.word(bytes, station),
            station: station as u8,
            kind: kind as u8,
        },
    }
}

/// Which of a field's by station and address.
fn place(station: usize, address: u8) -> usize {
    ADDRESSES * station + usize::from(address)
}

/// The values that stand for the members of a station's set.
fn values(bytes: &[u8], station: usize, set: Field, value: Field) -> Vec<(u8, u64)> {
    let set = set.sets(bytes, station);
    let value_of = |address: u8| value.long(bytes, place(station, address));
    (0..=u8::MAX)
        .filter(|address| set.has(*address))
        .map(|address| (address, value_of(address)))
        .collect()
}

impl Waiter {
    /// The object sets by page "what its request wants to read": beside those that it writes.
    fn reads(&self) -> Addresses {
        match &self.request {
            Request::Read(address) => Addresses::one(*address),
            Request::Write(_) => Addresses::default(),
            Request::Commit(commit) => commit.record.reads.iter().map(|(a, _)| *a).collect(),
        }
    }

    /// "address of the waiting read; page × 8 of the waiting write"
    fn requested(&self) -> u8 {
        match self.request {
            Request::Read(address) => address,
            Request::Write(page) => address(page, 0),
            Request::Commit(_) => 0,
        }
    }

    /// "0 nothing, 1 a read, 2 a write, 3 a commit"
    fn want(&self) -> u8 {
        match self.request {
            Request::Read(_) => 1,
            Request::Write(_) => 2,
            Request::Commit(_) => 3,
        }
    }
}

/// The server's bytes, leftovers 0.
pub fn encode(server: &Server) -> Vec<u8> {
    let mut bytes = vec![0; LENGTH];
    lay(server, &mut bytes);
    bytes
}

/// Lays the server's bytes over others of a state: leftovers keep theirs.
pub fn lay(server: &Server, bytes: &mut [u8]) {
    Field::Last.put_word(bytes, 0, server.last);
    Field::NextAge.put_long(bytes, 0, server.next_age);
    Field::NextArrival.put_long(bytes, 0, server.next_arrival);
    for (address, value) in server.values.into_iter().enumerate() {
        Field::Value.put_long(bytes, address, value);
    }
    for (address, version) in server.versions.into_iter().enumerate() {
        Field::Version.put_word(bytes, address, version);
    }
    lay_locks(server, bytes);
    for station in 0..STATIONS {
        let Seen {
            latest,
            age,
            unfinished,
            kept,
        } = server.seen[station];
        Field::Kind.put_byte_of(bytes, station, server.kinds[station] as u8);
        Field::Latest.put_word(bytes, station, latest);
        Field::Age.put_long(bytes, station, age);
        Field::Unfinished.put_byte_of(bytes, station, unfinished.into());
        Field::AgeKept.put_byte_of(bytes, station, kept.into());
        Field::Listed.put_word(bytes, station, server.listed[station]);
    }
    lay_entries(&server.waiting, bytes);
}

fn lay_entries(waiting: &[Waiter], bytes: &mut [u8]) {
    for station in 0..STATIONS {
        let waits = |waiter: &&Waiter| usize::from(waiter.station) == station;
        lay_entry(station, waiting.iter().find(waits), bytes);
    }
}

fn lay_locks(server: &Server, bytes: &mut [u8]) {
    let mut asked = 0;
    for (page, lock) in (0..PAGES as u8).zip(&server.whole) {
        let holder = lock.map_or(0, |lock| lock.holder + 1);
        Field::Whole.put_byte_of(bytes, page.into(), holder);
        let given = lock.map_or(0, |lock| lock.transaction);
        Field::WholeFor.put_word(bytes, page.into(), given);
        if lock.is_some_and(|lock| lock.asked) {
            asked |= page_bit(page);
        }
    }
    Field::Asked.put_word(bytes, 0, asked);
    bytes[Field::Lock.range()].fill(0);
    for (station, locks) in (1..).zip(&server.locks) {
        for (page, objects) in (0..).zip(&locks.0) {
            for object in (0..OBJECTS as u8).filter(|object| objects & object_bit(*object) != 0) {
                Field::Lock.put_byte_of(bytes, address(page, object).into(), station);
            }
        }
    }
}

/// A station's entry in the waiting list, or that it has none.
fn lay_entry(station: usize, waiter: Option<&Waiter>, bytes: &mut [u8]) {
    let callbacks = waiter.and_then(|waiter| waiter.callbacks);
    Field::Arrival.put_long(bytes, station, waiter.map_or(0, |waiter| waiter.arrival));
    for (field, byte) in [
        (Field::Want, waiter.map_or(0, Waiter::want)),
        (Field::Request, waiter.map_or(0, Waiter::requested)),
        (Field::Called, callbacks.is_some().into()),
        (Field::Pend, callbacks.map_or(0, |callbacks| callbacks.owed)),
        (Field::Busy, callbacks.map_or(0, |callbacks| callbacks.busy)),
    ] {
        field.put_byte_of(bytes, station, byte);
    }
    let reads = waiter.map_or_else(Addresses::default, Waiter::reads);
    let writes = waiter.map_or_else(Addresses::default, |waiter| waiter.writes);
    Field::ReadSet.put_sets(bytes, station, &reads);
    Field::WrittenSet.put_sets(bytes, station, &writes);
    if let Some(Request::Commit(commit)) = waiter.map(|waiter| &waiter.request) {
        lay_commit(commit, bytes);
    }
}

/// A commit's own: "work", the versions and the values. Its sets stand in the entry.
fn lay_commit(commit: &Commit, bytes: &mut [u8]) {
    let Record {
        reads,
        writes,
        transaction,
        station,
        ..
    } = &commit.record;
    let station = usize::from(*station);
    Field::Work.put_word(bytes, station, *transaction);
    let mut versions = commit.versions.iter();
    for (entries, value_field, version_field) in [
        (reads, Field::ReadValue, Field::ReadVersion),
        (writes, Field::WrittenValue, Field::WrittenVersion),
    ] {
        for ((address, value), version) in entries.iter().zip(versions.by_ref()) {
            value_field.put_long(bytes, place(station, *address), *value);
            version_field.put_word(bytes, place(station, *address), *version);
        }
    }
}

/// Lays what a step leaves: a commit that it took has stood in its station's entry, though it may have left it since.
pub fn lay_step(message: &[u8], server: &Server, bytes: &mut [u8]) {
    if let Ok((from, Up::Commit(commit))) = Up::decode(message, &server.kinds) {
        // without a number left a locking commit is turned away before
        let spent = Field::Last.word(bytes, 0) == u32::MAX;
        if !spent || !server.kinds[usize::from(from)].locks() {
            lay_commit(&commit, bytes);
        }
    }
    lay(server, bytes);
}
