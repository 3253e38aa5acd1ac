//! The server: its step on an up message, the pass over its waiting list, cycles and victims.

pub mod state;

use super::message::{Commit, Down, Field, Grant, PageMessage, Up, INVALIDATE};
use super::places::Place;
use super::sets::{address, object_bit, page_bit, page_of, rising, station_bit, Addresses};
use super::sets::{ObjectSet, PageSet, StationSet, ADDRESSES, OBJECTS, PAGES, STATIONS};
use super::{Cause, Kind, Number};
use crate::record::Record;
use std::array;

#[derive(Clone, Debug, PartialEq, Eq)]
pub struct Server {
    kinds: [Kind; STATIONS],
    /// The last commit number used.
    last: u32,
    values: [u64; ADDRESSES],
    /// "The version is kept for each object": the number of the last commit that wrote it, first 0.
    versions: [u32; ADDRESSES],
    seen: [Seen; STATIONS],
    /// The age that the next transaction gets, and the arrival that the next waiter gets.
    next_age: u64,
    next_arrival: u64,
    /// Object locks by holder.
    locks: [Addresses; STATIONS],
    whole: [Option<WholeLock>; PAGES],
    listed: [PageSet; STATIONS],
    /// "one waiting list by arrival"
    waiting: Vec<Waiter>,
}

/// A station's latest transaction and its age, which counts while it is unfinished or kept.
#[derive(Clone, Copy, Debug, PartialEq, Eq)]
struct Seen {
    latest: u32,
    age: u64,
    unfinished: bool,
    /// Document 02, wish 2: the age is kept for the station's next transactions.
    kept: bool,
}

/// How a transaction ends at the server.
#[derive(Clone, Copy, Debug, PartialEq, Eq)]
enum End {
    Committed,
    Aborted(Cause),
    /// "an abort message arrives"
    Given,
}

impl End {
    /// "A station aborted for cause 1 now keeps its age for its next transactions, until one commits, the server aborts
    /// one for cause 2, 3 or 4, or an abort message arrives."
    fn keeps_age(self) -> bool {
        self == End::Aborted(Cause::Cycle)
    }
}

#[derive(Clone, Copy, Debug, PartialEq, Eq)]
struct WholeLock {
    holder: u8,
    /// "send 19, once for each 18"
    asked: bool,
    /// The 18's: 19 names it.
    transaction: u32,
}

#[derive(Clone, Debug, PartialEq, Eq)]
struct Waiter {
    station: u8,
    /// Rises from waiter to waiter.
    arrival: u64,
    request: Request,
    wants: Addresses,
    writes: Addresses,
    /// None until its 20s are sent.
    callbacks: Option<Callbacks>,
}

#[derive(Clone, Debug, PartialEq, Eq)]
enum Request {
    Read(u8),
    /// By its page; the objects are all that it wants.
    Write(u8),
    Commit(Box<Commit>),
}

/// Stations that owe a 7, and those of them that sent 6.
#[derive(Clone, Copy, Debug, PartialEq, Eq)]
struct Callbacks {
    owed: StationSet,
    busy: StationSet,
}

/// What an accepted step gives.
#[derive(Clone, Debug, Default, PartialEq, Eq)]
pub struct Step {
    pub sent: Vec<Vec<u8>>,
    pub records: Vec<Vec<u8>>,
    pub victims: Vec<Victim>,
}

/// A victim, and the edges when it was chosen.
#[derive(Clone, Debug, PartialEq, Eq)]
pub struct Victim {
    pub station: u8,
    pub waits_for: WaitsFor,
}

/// For each station the set of those that it waits for.
pub type WaitsFor = [StationSet; STATIONS];

/// Whether a visited waiter stays in the list.
enum Visit {
    Stays,
    StaysChanged,
    Leaves,
}

impl Visit {
    fn stays(changed: bool) -> Visit {
        match changed {
            true => Visit::StaysChanged,
            false => Visit::Stays,
        }
    }
}

impl Waiter {
    fn read(station: u8, address: u8) -> Waiter {
        Waiter {
            station,
            arrival: 0,
            request: Request::Read(address),
            wants: Addresses::one(address),
            writes: Addresses::default(),
            callbacks: None,
        }
    }

    /// "The request waits for all its objects and takes them in one step."
    fn write(station: u8, page: u8, objects: ObjectSet) -> Waiter {
        let mut writes = Addresses::default();
        writes.join(page, objects);
        Waiter {
            station,
            arrival: 0,
            request: Request::Write(page),
            wants: writes,
            writes,
            callbacks: None,
        }
    }

    fn commit(station: u8, commit: Box<Commit>) -> Waiter {
        Waiter {
            station,
            arrival: 0,
            wants: commit.wanted(),
            writes: commit.written(),
            request: Request::Commit(commit),
            callbacks: None,
        }
    }

    /// "an earlier waiter wants it and one of the two writes"; reading 31: writes that object.
    fn conflicts(&self, other: &Waiter) -> bool {
        self.wants.meets(&other.writes) || self.writes.meets(&other.wants)
    }
}

impl Step {
    fn send(&mut self, station: u8, message: Down) {
        self.sent.push(message.encode(station));
    }
}

/// The step.
impl Server {
    pub fn fresh(kinds: [Kind; STATIONS], last: u32, latest: [u32; STATIONS]) -> Server {
        Server {
            kinds,
            last,
            values: [0; ADDRESSES],
            versions: [0; ADDRESSES],
            seen: latest.map(|latest| Seen {
                latest,
                age: 0,
                unfinished: false,
                kept: false,
            }),
            next_age: 1,
            next_arrival: 1,
            locks: [Addresses::default(); STATIONS],
            whole: [None; PAGES],
            listed: [0; STATIONS],
            waiting: Vec::new(),
        }
    }

    /// The sender and its message, if neither number 2 to 5 nor 6 stands against it.
    pub fn admits(&self, bytes: &[u8]) -> Result<(u8, Up), Number> {
        let (from, message) = Up::decode(bytes, &self.kinds)?;
        match self.expects(from, &message) {
            true => Ok((from, message)),
            false => Err(Number::Unexpected),
        }
    }

    pub fn step(&mut self, bytes: &[u8]) -> Result<Step, Number> {
        let (from, message) = self.admits(bytes)?;
        let mut step = Step::default();
        if let Some(transaction) = message.own_transaction() {
            self.note_transaction(from, transaction);
        }
        // reading 37: "the message's own effect ..., then the pass, then a victim's 22, then the pass again"
        self.take(from, message, &mut step);
        self.settle(&mut step);
        Ok(step)
    }

    /// Number 6.
    fn expects(&self, from: u8, message: &Up) -> bool {
        let number_fits = message
            .own_transaction()
            .is_none_or(|transaction| self.number_fits(from, transaction));
        let locking = self.kinds[from as usize].locks();
        number_fits
            && match message {
                Up::Read { .. } => true,
                Up::Commit(commit) => !locking || self.covers(from, commit),
                Up::Purge { page } => !self.holds_lock_on(from, *page),
                // "2, 4, 6, 7, 8 from a validating station"
                Up::Write { .. } | Up::Abort { .. } | Up::Busy { .. } => locking,
                Up::WrittenSet { transaction, .. } => locking && !self.is_above(from, *transaction),
                Up::Done { dropped, .. } => {
                    locking && !rising(*dropped).any(|page| self.holds_lock_on(from, page))
                }
            }
    }

    /// "1 to 4 with a number below the station's latest, of a finished transaction, above an unfinished locking one or
    /// while it waits" are unexpected; readings 7 and 8.
    fn number_fits(&self, from: u8, transaction: u32) -> bool {
        let seen = self.seen[from as usize];
        let open_locking = seen.unfinished && self.kinds[from as usize].locks();
        !self.waits(from)
            && match transaction.cmp(&seen.latest) {
                std::cmp::Ordering::Less => false,
                std::cmp::Ordering::Equal => seen.unfinished,
                std::cmp::Ordering::Greater => !open_locking,
            }
    }

    /// Of an 8 of a keeping station: "One naming a transaction above an unfinished one is number 6."
    fn is_above(&self, from: u8, transaction: u32) -> bool {
        let seen = self.seen[from as usize];
        self.kinds[from as usize].keeps() && seen.unfinished && transaction > seen.latest
    }

    /// Reading 12: "each object it writes must be locked by it, or its page whole".
    fn covers(&self, from: u8, commit: &Commit) -> bool {
        commit.record.writes.iter().all(|(address, _)| {
            self.locks[from as usize].has(*address) || self.holds_whole(from, page_of(*address))
        })
    }

    /// Reading 10: "an object lock on that page or the whole lock".
    fn holds_lock_on(&self, station: u8, page: u8) -> bool {
        self.locks[station as usize].on(page) != 0 || self.holds_whole(station, page)
    }

    fn holds_whole(&self, station: u8, page: u8) -> bool {
        self.whole[page as usize].is_some_and(|lock| lock.holder == station)
    }

    /// "each transaction gets a new age", at its first message; readings 8 and 9. One of a station that keeps its age
    /// has that, and no counter moves.
    fn note_transaction(&mut self, from: u8, transaction: u32) {
        let seen = &mut self.seen[from as usize];
        if transaction == seen.latest {
            return;
        }
        if !seen.kept {
            seen.age = self.next_age;
            self.next_age += 1;
        }
        seen.latest = transaction;
        seen.unfinished = true;
    }

    /// Document 01 without document 02's wish 2, to measure what the wish changes: no age is kept.
    pub fn forget_ages(&mut self) {
        for seen in &mut self.seen {
            seen.kept = false;
        }
    }

    /// As before document 02's wish 6, to measure what the wish changes: all objects of a page have the highest version on
    /// it, and a 23 names the whole page and unlists it. For lines on which no commit waits.
    pub fn versions_of_pages(&mut self, step: &mut Step) {
        for page in self.versions.chunks_mut(OBJECTS) {
            let version = page.iter().copied().max().unwrap_or(0);
            page.fill(version);
        }
        let invalidates = |message: &&mut Vec<u8>| Field::Kind.byte(message) == INVALIDATE;
        for message in step.sent.iter_mut().filter(invalidates) {
            let pages = Field::Sets.sets(message, 0).pages();
            self.unlist(Field::Station.byte(message), pages);
            let whole = array::from_fn(|page| match pages & page_bit(page as u8) {
                0 => 0,
                _ => ObjectSet::MAX,
            });
            Field::Sets.put_sets(message, 0, &Addresses(whole));
        }
    }

    fn take(&mut self, from: u8, message: Up, step: &mut Step) {
        let locks = self.kinds[from as usize].locks();
        match message {
            Up::Read { address, .. } if locks => self.join(Waiter::read(from, address)),
            // "Validating read: send 16 at the same step, unavailable set empty."
            Up::Read { address, .. } => self.send_page(from, address, Grant::Page, 0, step),
            Up::Write { page, objects, .. } => self.join(Waiter::write(from, page, objects)),
            Up::Commit(commit) if locks => self.locking_commit(from, &commit, step),
            Up::Commit(commit) => self.join(Waiter::commit(from, commit)),
            // "every transaction's end frees its locks"
            Up::Abort { .. } => self.end(from, End::Given),
            Up::Purge { page } => self.unlist(from, page_bit(page)),
            Up::Busy {
                requester,
                transaction,
            } => self.busy(from, requester, transaction),
            Up::Done {
                requester,
                transaction,
                dropped,
            } => self.done(from, requester, transaction, dropped),
            Up::WrittenSet {
                page,
                transaction,
                written,
            } => self.written_set(from, page, transaction, written),
        }
    }

    /// "joins one waiting list by arrival"
    fn join(&mut self, waiter: Waiter) {
        let arrival = self.next_arrival;
        self.next_arrival += 1;
        self.waiting.push(Waiter { arrival, ..waiter });
    }

    /// "A locking commit installs without waiting"; reading 40.
    fn locking_commit(&mut self, from: u8, commit: &Commit, step: &mut Step) {
        if self.last == u32::MAX {
            self.abort(from, Cause::Spent, step);
        } else {
            self.install(from, commit, step);
        }
    }

    /// "A station is listed as holding a page ... until 5, a page in 7"; "A listed copy remains listed after 23".
    fn unlist(&mut self, station: u8, pages: PageSet) {
        self.listed[station as usize] &= !pages;
    }

    fn busy(&mut self, from: u8, requester: u8, transaction: u32) {
        if let Some(callbacks) = self.open_callback(from, requester, transaction) {
            callbacks.busy |= station_bit(from);
        }
    }

    fn done(&mut self, from: u8, requester: u8, transaction: u32, dropped: PageSet) {
        self.unlist(from, dropped);
        if let Some(callbacks) = self.open_callback(from, requester, transaction) {
            callbacks.owed &= !station_bit(from);
            callbacks.busy &= !station_bit(from);
        }
    }

    /// Reading 39: "A 20 is open while the requester waits in the named transaction and this station owes it a 7."
    fn open_callback(
        &mut self,
        from: u8,
        requester: u8,
        transaction: u32,
    ) -> Option<&mut Callbacks> {
        if self.seen[requester as usize].latest != transaction {
            return None;
        }
        self.waiting
            .iter_mut()
            .find(|waiter| waiter.station == requester)
            .and_then(|waiter| waiter.callbacks.as_mut())
            .filter(|callbacks| callbacks.owed & station_bit(from) != 0)
    }

    /// "when 8 makes it locks on its set"; reading 11. A keeping station's "is heeded either way; its set is locked only if
    /// that transaction is unfinished", and one "that the server first meets through such an 8 gets its age then".
    fn written_set(&mut self, from: u8, page: u8, transaction: u32, written: ObjectSet) {
        let keeps = self.kinds[from as usize].keeps();
        if !self.is_asked_of(from, page) || !(keeps || self.is_unfinished(from, transaction)) {
            return;
        }
        self.whole[page as usize] = None;
        if transaction > self.seen[from as usize].latest {
            self.note_transaction(from, transaction);
        }
        if self.is_unfinished(from, transaction) {
            self.locks[from as usize].join(page, written);
        }
    }

    /// The station has the page locked whole and was sent a 19 for it.
    fn is_asked_of(&self, station: u8, page: u8) -> bool {
        self.whole[page as usize].is_some_and(|lock| lock.asked && lock.holder == station)
    }

    fn is_unfinished(&self, station: u8, transaction: u32) -> bool {
        let seen = self.seen[station as usize];
        seen.unfinished && seen.latest == transaction
    }

    fn waits(&self, station: u8) -> bool {
        self.waiting.iter().any(|waiter| waiter.station == station)
    }

    /// The transaction is finished; its locks and its request go, and its age if it is not kept. Of a keeping station "the
    /// whole lock outlives commit and every abort".
    fn end(&mut self, station: u8, end: End) {
        let seen = &mut self.seen[station as usize];
        seen.unfinished = false;
        seen.kept = end.keeps_age();
        self.locks[station as usize] = Addresses::default();
        let keeps = self.kinds[station as usize].keeps();
        for lock in &mut self.whole {
            if lock.is_some_and(|lock| lock.holder == station && !keeps) {
                *lock = None;
            }
        }
        self.waiting.retain(|waiter| waiter.station != station);
    }

    fn abort(&mut self, station: u8, cause: Cause, step: &mut Step) {
        self.end(station, End::Aborted(cause));
        let transaction = self.seen[station as usize].latest;
        step.send(station, Down::Aborted { transaction, cause });
    }

    /// "Install: write values, archive the record, free locks, send 21, then, stations rising, 23 ... to other validating
    /// stations listed for" a written page; by document 02 "Kind 23 carries object sets by page".
    fn install(&mut self, station: u8, commit: &Commit, step: &mut Step) {
        self.last += 1;
        for (address, value) in &commit.record.writes {
            self.values[*address as usize] = *value;
            self.versions[*address as usize] = self.last;
        }
        let archived = Record {
            commit: self.last,
            ..commit.record.clone()
        };
        step.records.push(archived.encode());
        self.end(station, End::Committed);
        let committed = Down::Committed {
            transaction: archived.transaction,
            commit: self.last,
        };
        step.send(station, committed);
        self.invalidate(station, commit.written(), step);
    }

    /// 23 names all that the commit wrote, on all pages, and unlists nothing.
    fn invalidate(&mut self, writer: u8, objects: Addresses, step: &mut Step) {
        for station in 0..STATIONS as u8 {
            let listed = self.listed[station as usize] & objects.pages() != 0;
            let validating = !self.kinds[station as usize].locks();
            if station != writer && validating && listed {
                step.send(station, Down::Invalidate { objects });
            }
        }
    }

    /// "A station is listed as holding a page from the sending of 16, 17 or 18".
    fn send_page(
        &mut self,
        station: u8,
        at: u8,
        grant: Grant,
        unavailable: ObjectSet,
        step: &mut Step,
    ) {
        let page = page_of(at);
        self.listed[station as usize] |= page_bit(page);
        let first = address(page, 0) as usize;
        let message = PageMessage {
            grant,
            address: at,
            transaction: self.seen[station as usize].latest,
            versions: self.versions[first..first + OBJECTS].try_into().unwrap(),
            unavailable,
            values: self.values[first..first + OBJECTS].try_into().unwrap(),
        };
        step.send(station, Down::Page(message));
    }
}

/// The pass.
impl Server {
    /// "When the pass rests and edges form a cycle, the youngest in any cycle gets 22, cause 1, its locks and request
    /// go, and the pass runs again."
    fn settle(&mut self, step: &mut Step) {
        loop {
            while self.pass(step) {}
            let waits_for = self.waits_for();
            let Some(station) = self.youngest(on_cycles(&waits_for)) else {
                return;
            };
            step.victims.push(Victim { station, waits_for });
            self.abort(station, Cause::Cycle, step);
        }
    }

    /// Reading 28: "The list is gone through to its end"; tells whether anything changed.
    fn pass(&mut self, step: &mut Step) -> bool {
        let mut changed = false;
        let mut at = 0;
        while at < self.waiting.len() {
            match self.visit(at, step) {
                Visit::Stays => at += 1,
                Visit::StaysChanged => {
                    changed = true;
                    at += 1;
                }
                Visit::Leaves => changed = true,
            }
        }
        changed
    }

    /// Reading 29: "The bullets are gates, looked at anew at every visit". Document 02, reading 24: "causes 4 and 2; then 19
    /// to keeping holders of wanted pages, pages rising; cause 3; blocked; then 19 to locking holders".
    fn visit(&mut self, at: usize, step: &mut Step) -> Visit {
        if let Some(cause) = self.outdated(at) {
            self.abort(self.waiting[at].station, cause, step);
            return Visit::Leaves;
        }
        let whole = self.whole_by_another(at);
        let kept = self.kept_whole(whole);
        let asks = self.ask_holders(kept, step);
        if self.writes_locked(at) {
            self.abort(self.waiting[at].station, Cause::Locked, step);
            return Visit::Leaves;
        }
        if self.blockers(at) != 0 {
            return Visit::stays(asks);
        }
        if whole != 0 {
            return Visit::stays(self.ask_holders(whole, step) || asks);
        }
        match self.waiting[at].request {
            Request::Read(address) => {
                self.grant_read(at, address, step);
                Visit::Leaves
            }
            Request::Write(_) | Request::Commit(_) => self.write_or_call_back(at, step),
        }
    }

    /// The first bullet: causes 4 and 2 of a validating commit.
    fn outdated(&self, at: usize) -> Option<Cause> {
        let Request::Commit(commit) = &self.waiting[at].request else {
            return None;
        };
        // "Cause 2 is given for a used object with another version."
        let stale = |(address, version): (u8, u32)| version != self.versions[address as usize];
        if self.last == u32::MAX {
            Some(Cause::Spent)
        } else if commit.versioned().any(stale) {
            Some(Cause::Version)
        } else {
            None
        }
    }

    /// Cause 3: "exactly when a written object itself is locked by another" (wish 11): a page locked whole is asked for by
    /// the third bullet, as one that is only read.
    fn writes_locked(&self, at: usize) -> bool {
        let waiter = &self.waiting[at];
        matches!(waiter.request, Request::Commit(_))
            && self.holders(waiter.station, &waiter.writes) != 0
    }

    fn whole_holder_other_than(&self, station: u8, page: u8) -> Option<u8> {
        let holder = self.whole[page as usize]?.holder;
        (holder != station).then_some(holder)
    }

    /// Other stations with an object lock on one of these.
    fn holders(&self, but: u8, objects: &Addresses) -> StationSet {
        (0..STATIONS as u8)
            .filter(|station| *station != but)
            .filter(|station| self.locks[*station as usize].meets(objects))
            .fold(0, |set, station| set | station_bit(station))
    }

    /// The second bullet: "Blocked while another holds a lock on an object wanted ..., or an earlier waiter wants it
    /// and one of the two writes."
    fn blockers(&self, at: usize) -> StationSet {
        let waiter = &self.waiting[at];
        let holders = self.holders(waiter.station, &waiter.wants);
        self.waiting[..at]
            .iter()
            .filter(|earlier| waiter.conflicts(earlier))
            .fold(holders, |set, earlier| set | station_bit(earlier.station))
    }

    /// The third bullet: "Page locked whole by another".
    fn whole_by_another(&self, at: usize) -> PageSet {
        let waiter = &self.waiting[at];
        rising(waiter.wants.pages())
            .filter(|page| {
                self.whole_holder_other_than(waiter.station, *page)
                    .is_some()
            })
            .fold(0, |pages, page| pages | page_bit(page))
    }

    /// Of these pages those that a keeping station has.
    fn kept_whole(&self, pages: PageSet) -> PageSet {
        let keeps = |lock: WholeLock| self.kinds[lock.holder as usize].keeps();
        rising(pages)
            .filter(|page| self.whole[*page as usize].is_some_and(keeps))
            .fold(0, |pages, page| pages | page_bit(page))
    }

    /// "send 19, once for each 18, pages rising"; tells whether any was.
    fn ask_holders(&mut self, pages: PageSet, step: &mut Step) -> bool {
        let mut asks = false;
        for page in rising(pages) {
            let Some(lock) = &mut self.whole[page as usize] else {
                continue;
            };
            if !lock.asked {
                lock.asked = true;
                let transaction = lock.transaction;
                step.send(lock.holder, Down::DeEscalate { page, transaction });
                asks = true;
            }
        }
        asks
    }

    /// "Read: send 16."
    fn grant_read(&mut self, at: usize, address: u8, step: &mut Step) {
        let station = self.waiting.remove(at).station;
        let unavailable = self.unavailable(station, page_of(address), object_bit(address));
        self.send_page(station, address, Grant::Page, unavailable, step);
    }

    /// "Write: once, send 20 ... When each has answered 7, lock or install."
    fn write_or_call_back(&mut self, at: usize, step: &mut Step) -> Visit {
        let before = self.waiting[at].callbacks;
        let callbacks = match before {
            Some(callbacks) => callbacks,
            None => self.call_back(at, step),
        };
        // reading 32: "If nobody is to be called back, the grant or install comes at the same visit."
        if callbacks.owed == 0 {
            self.lock_or_install(at, step);
            return Visit::Leaves;
        }
        Visit::stays(before.is_none())
    }

    /// "send 20 naming the objects to be written to each other locking station listed for a page of theirs, stations
    /// rising"
    fn call_back(&mut self, at: usize, step: &mut Step) -> Callbacks {
        let Waiter {
            station, writes, ..
        } = self.waiting[at];
        let called = self.other_locking_listed(station, writes.pages());
        for other in rising(called) {
            let callback = Down::Callback {
                requester: station,
                transaction: self.seen[station as usize].latest,
                objects: writes,
            };
            step.send(other, callback);
        }
        let callbacks = Callbacks {
            owed: called,
            busy: 0,
        };
        self.waiting[at].callbacks = Some(callbacks);
        callbacks
    }

    fn other_locking_listed(&self, but: u8, pages: PageSet) -> StationSet {
        (0..STATIONS as u8)
            .filter(|station| *station != but)
            .filter(|station| self.kinds[*station as usize].locks())
            .filter(|station| self.listed[*station as usize] & pages != 0)
            .fold(0, |set, station| set | station_bit(station))
    }

    fn lock_or_install(&mut self, at: usize, step: &mut Step) {
        let waiter = self.waiting.remove(at);
        match waiter.request {
            Request::Commit(commit) => self.install(waiter.station, &commit, step),
            Request::Write(page) => {
                self.grant_write(waiter.station, page, waiter.writes.on(page), step)
            }
            Request::Read(_) => unreachable!("a read locks nothing"),
        }
    }

    /// "The whole page is locked (18) if no other locking station is listed and no other station has a lock there or
    /// waits to write there; else the object (17)": by document 02 all objects of the request.
    fn grant_write(&mut self, station: u8, page: u8, objects: ObjectSet, step: &mut Step) {
        let alone = self.other_locking_listed(station, page_bit(page)) == 0
            && self.locked_by_others(station, page) == 0
            && self.awaited_writes(page) == 0;
        let unavailable = self.unavailable(station, page, objects);
        // "byte 3 is then 0, as in its 17 or 18"
        let first = address(page, 0);
        if alone {
            self.whole[page as usize] = Some(WholeLock {
                holder: station,
                asked: false,
                transaction: self.seen[station as usize].latest,
            });
            self.send_page(station, first, Grant::Whole, unavailable, step);
        } else {
            self.locks[station as usize].join(page, objects);
            self.send_page(station, first, Grant::Object, unavailable, step);
        }
    }

    /// "Unavailable in 16 to 18 are objects that others have locked or wait to write, without the one requested": without
    /// all that are. The station's own entry has left the list.
    fn unavailable(&self, station: u8, page: u8, requested: ObjectSet) -> ObjectSet {
        let taken = self.locked_by_others(station, page) | self.awaited_writes(page);
        taken & !requested
    }

    fn locked_by_others(&self, station: u8, page: u8) -> ObjectSet {
        (0..STATIONS as u8)
            .filter(|other| *other != station)
            .fold(0, |set, other| set | self.locks[other as usize].on(page))
    }

    /// Reading 33: "counts every other entry of the list, earlier or later, blocked or not".
    fn awaited_writes(&self, page: u8) -> ObjectSet {
        self.waiting
            .iter()
            .fold(0, |set, waiter| set | waiter.writes.on(page))
    }

    /// "A waits-for edge runs from a waiter to a lock's holder that blocks it, an earlier waiter that blocks it, and a
    /// station that sent 6 to it and not yet 7".
    pub fn waits_for(&self) -> WaitsFor {
        let mut edges = [0; STATIONS];
        for (at, waiter) in self.waiting.iter().enumerate() {
            let busy = waiter.callbacks.map_or(0, |callbacks| callbacks.busy);
            edges[waiter.station as usize] = self.blockers(at) | busy;
        }
        edges
    }

    /// "Young means the server saw its transaction's first message later".
    fn youngest(&self, stations: StationSet) -> Option<u8> {
        rising(stations).max_by_key(|station| self.seen[*station as usize].age)
    }
}

/// Stations that reach themselves, by a walk from each.
fn on_cycles(edges: &WaitsFor) -> StationSet {
    (0..STATIONS as u8)
        .filter(|station| reached(edges, edges[*station as usize]) & station_bit(*station) != 0)
        .fold(0, |set, station| set | station_bit(station))
}

/// All that is reached from a set, itself among it.
fn reached(edges: &WaitsFor, from: StationSet) -> StationSet {
    let mut seen = from;
    let mut to_visit: Vec<u8> = rising(from).collect();
    while let Some(station) = to_visit.pop() {
        let new = edges[station as usize] & !seen;
        seen |= new;
        to_visit.extend(rising(new));
    }
    seen
}

/// What a check of a whole line looks at.
impl Server {
    pub fn values(&self) -> &[u64; ADDRESSES] {
        &self.values
    }

    pub fn versions(&self) -> &[u32; ADDRESSES] {
        &self.versions
    }

    /// Stations with an entry in the waiting list.
    pub fn waiters(&self) -> StationSet {
        self.waiting
            .iter()
            .fold(0, |set, waiter| set | station_bit(waiter.station))
    }

    /// Objects that a station has locked, and pages that it has locked whole.
    pub fn locks(&self, station: u8) -> (Addresses, PageSet) {
        let whole = (0..PAGES as u8)
            .filter(|page| self.holds_whole(station, *page))
            .fold(0, |pages, page| pages | page_bit(page));
        (self.locks[station as usize], whole)
    }

    /// The latest transactions that the server has met, by station.
    pub fn latest(&self) -> [u32; STATIONS] {
        self.seen.each_ref().map(|seen| seen.latest)
    }

    /// Pages that a station is listed for.
    pub fn listed(&self, station: u8) -> PageSet {
        self.listed[station as usize]
    }
}

/// What keeps a waiter: the first gate that is shut to it.
#[derive(Clone, Copy, Debug, PartialEq, Eq)]
pub enum HeldBy {
    /// Holders of locks on objects, and earlier waiters.
    Blocked(StationSet),
    /// Holders of whole pages, who owe an 8.
    Whole(StationSet),
    /// Stations that owe a 7, and those of them that sent 6.
    Callbacks { owed: StationSet, busy: StationSet },
}

/// What a chart shows.
impl Server {
    /// The waiting list in its order.
    pub fn held_up(&self) -> Vec<(u8, HeldBy)> {
        let waiters = self.waiting.iter().enumerate();
        waiters
            .map(|(at, waiter)| (waiter.station, self.held_by(at)))
            .collect()
    }

    fn held_by(&self, at: usize) -> HeldBy {
        let blockers = self.blockers(at);
        if blockers != 0 {
            return HeldBy::Blocked(blockers);
        }
        let holders = rising(self.whole_by_another(at))
            .filter_map(|page| self.whole[page as usize])
            .fold(0, |set, lock| set | station_bit(lock.holder));
        if holders != 0 {
            return HeldBy::Whole(holders);
        }
        let callbacks = self.waiting[at].callbacks;
        HeldBy::Callbacks {
            owed: callbacks.map_or(0, |callbacks| callbacks.owed),
            busy: callbacks.map_or(0, |callbacks| callbacks.busy),
        }
    }
}
