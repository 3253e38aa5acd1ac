//! A station: its owner's operations and its step on a down message.

pub mod state;

use super::message::{pages_of, Commit, Down, Grant, PageMessage, Up};
use super::sets::{address, object_bit, object_of, page_bit, page_of, rising, Addresses};
use super::sets::{ObjectSet, PageSet, Writing, OBJECTS, PAGES};
use super::{Answer, Cause, Kind, Number, LIMIT};
use crate::record::Record;
use std::collections::BTreeMap;

#[derive(Clone, Debug, PartialEq, Eq)]
pub struct Station {
    number: u8,
    kind: Kind,
    /// "A station numbers its transactions from 1": the last one begun, open or over.
    latest: u32,
    open: Option<Transaction>,
    /// Pages locked whole: by the open transaction, and at a keeping station by those before it.
    whole: PageSet,
    cached: [Option<Page>; PAGES],
    /// Callbacks answered 6, by requester.
    kept: BTreeMap<u8, Callback>,
}

/// A cached page.
#[derive(Clone, Debug, Default, PartialEq, Eq)]
struct Page {
    versions: [u32; OBJECTS],
    unavailable: ObjectSet,
    values: [u64; OBJECTS],
}

/// The open transaction; its number is the station's latest.
#[derive(Clone, Debug, Default, PartialEq, Eq)]
struct Transaction {
    /// First reads of objects not written before.
    reads: BTreeMap<u8, u64>,
    /// Last writes.
    writes: BTreeMap<u8, u64>,
    /// Of each object read or written, the version that its copy had when it first was.
    seen: BTreeMap<u8, u32>,
    locked: Addresses,
    out: Option<Out>,
}

/// What the owner waits for.
#[derive(Clone, Debug, PartialEq, Eq)]
enum Out {
    Read(u8),
    Write(Writing),
    Commit,
}

#[derive(Clone, Debug, PartialEq, Eq)]
struct Callback {
    transaction: u32,
    objects: Addresses,
}

/// An accepted call: what the owner gets and the messages sent.
#[derive(Clone, Debug, PartialEq, Eq)]
pub struct Done {
    pub answer: Answer,
    pub sent: Vec<Vec<u8>>,
}

type Answered = Result<Done, Number>;

fn answered(answer: Answer) -> Answered {
    Ok(Done {
        answer,
        sent: Vec::new(),
    })
}

impl Transaction {
    fn used(&self) -> PageSet {
        pages_of(self.reads.keys().chain(self.writes.keys()).copied())
    }

    fn written_pages(&self) -> PageSet {
        pages_of(self.writes.keys().copied())
    }

    fn written_on(&self, page: u8) -> ObjectSet {
        let written: Addresses = self.writes.keys().copied().collect();
        written.on(page)
    }

    /// "afterwards it sees that value or its own last write"; reading 23.
    fn told(&self, address: u8) -> Option<u64> {
        let own = self.writes.get(&address);
        own.or_else(|| self.reads.get(&address)).copied()
    }

    /// How many objects it will have written with these.
    fn written_with(&self, writing: &Writing) -> usize {
        let new = |(address, _): &(u8, u64)| !self.writes.contains_key(address);
        self.writes.len() + writing.entries().filter(new).count()
    }

    fn requested_page(&self) -> Option<u8> {
        match self.out {
            Some(Out::Read(address)) => Some(page_of(address)),
            Some(Out::Write(writing)) => Some(writing.page()),
            _ => None,
        }
    }

    /// "if the open transaction has read or written a named object"
    fn uses_any(&self, objects: &Addresses) -> bool {
        self.reads
            .keys()
            .chain(self.writes.keys())
            .any(|address| objects.has(*address))
    }
}

impl Page {
    fn of(message: &PageMessage) -> Page {
        Page {
            versions: message.versions,
            unavailable: message.unavailable,
            values: message.values,
        }
    }

    fn available(&self, address: u8) -> Option<u64> {
        let marked = self.unavailable & object_bit(address) != 0;
        (!marked).then_some(self.values[object_of(address) as usize])
    }
}

/// The owner's operations.
impl Station {
    pub fn fresh(number: u8, kind: Kind, latest: u32) -> Station {
        Station {
            number,
            kind,
            latest,
            open: None,
            whole: 0,
            cached: [const { None }; PAGES],
            kept: BTreeMap::new(),
        }
    }

    /// Reading 27: "begin is checked 7, 9, 11".
    pub fn begin(&mut self) -> Answered {
        self.nothing_out()?;
        if self.open.is_some() {
            return Err(Number::Open);
        }
        self.latest = self.latest.checked_add(1).ok_or(Number::Spent)?;
        self.open = Some(Transaction::default());
        answered(Answer::Begun(self.latest))
    }

    pub fn read(&mut self, address: u8) -> Answered {
        let transaction = self.acting()?;
        if let Some(value) = transaction.told(address) {
            return answered(Answer::Value(value));
        }
        // document 02, wish 1: before "waits" too, since what is read then is recorded at the delivery
        if transaction.reads.len() >= LIMIT {
            return Err(Number::Long);
        }
        if let Some(value) = self.available(address) {
            self.first_use(address);
            self.acting()?.reads.insert(address, value);
            return answered(Answer::Value(value));
        }
        self.request(Out::Read(address))
    }

    /// "But for these bytes a set of one behaves as the single request did".
    pub fn write(&mut self, address: u8, value: u64) -> Answered {
        self.write_all(Writing::one(address, value))
    }

    /// "the empty set, or several objects from a validating owner, is number 4": before 7 (document 02, reading 20).
    pub fn write_set(&mut self, page: u32, set: u32, values: &[u64; OBJECTS]) -> Answered {
        let writing = Writing::of(page, set, values).ok_or(Number::Range)?;
        if !self.kind.locks() && writing.objects().count_ones() > 1 {
            return Err(Number::Range);
        }
        self.write_all(writing)
    }

    /// "the request names those under no lock yet, and all are written when the grant arrives, at once if none is named"
    fn write_all(&mut self, writing: Writing) -> Answered {
        let transaction = self.acting()?;
        // "49th written object": one written before is none more
        if transaction.written_with(&writing) > LIMIT {
            return Err(Number::Long);
        }
        if self.to_be_asked(&writing) != 0 {
            return self.request(Out::Write(writing));
        }
        self.write_here(&writing);
        answered(Answer::Written)
    }

    /// Of these the objects that cannot be written locally.
    fn to_be_asked(&self, writing: &Writing) -> ObjectSet {
        let local = |address: u8| match self.kind.locks() {
            true => self.holds(address),
            // document 02: "It writes locally only on available objects."
            false => self.available(address).is_some(),
        };
        let addresses = writing.entries().map(|(address, _)| address);
        addresses
            .filter(|address| !local(*address))
            .fold(0, |set, address| set | object_bit(address))
    }

    /// "writes locally under its lock on object or page": a page that is locked whole may be written though it is marked.
    fn holds(&self, address: u8) -> bool {
        let open = self.open.as_ref();
        self.has_whole(page_of(address)) || open.is_some_and(|open| open.locked.has(address))
    }

    fn has_whole(&self, page: u8) -> bool {
        self.whole & page_bit(page) != 0
    }

    /// Document 02, wish 10: a page that neither purge nor callback takes away.
    fn keeps(&self, page: u8) -> bool {
        self.kind.keeps() && self.has_whole(page)
    }

    fn write_here(&mut self, writing: &Writing) {
        for (address, value) in writing.entries() {
            self.first_use(address);
            if let Some(transaction) = &mut self.open {
                transaction.writes.insert(address, value);
            }
        }
        self.lay_own_values(writing.page());
    }

    /// "Commit sends 3 and waits for 21 or 22."
    pub fn commit(&mut self) -> Answered {
        let transaction = self.acting()?;
        transaction.out = Some(Out::Commit);
        let used = transaction.used();
        let reads: Vec<(u8, u64)> = transaction.reads.iter().map(|(a, v)| (*a, *v)).collect();
        let writes: Vec<(u8, u64)> = transaction.writes.iter().map(|(a, v)| (*a, *v)).collect();
        let entries = reads.iter().chain(&writes).map(|(address, _)| *address);
        let commit = Commit {
            used,
            versions: self.versions(entries),
            record: Record {
                reads,
                writes,
                commit: 0,
                transaction: self.latest,
                station: self.number,
                kind: self.kind as u8,
            },
        };
        self.send(Answer::Waits, Up::Commit(Box::new(commit)))
    }

    /// "An owner's abort ends the transaction; a locking station sends 4."
    pub fn abort(&mut self) -> Answered {
        self.acting()?;
        let mut sent = Vec::new();
        if self.kind.locks() {
            let transaction = self.latest;
            sent.push(Up::Abort { transaction }.encode(self.number));
        }
        self.undo();
        self.end(&mut sent);
        let answer = Answer::Dropped;
        Ok(Done { answer, sent })
    }

    /// Reading 6: the page's range is number 4, before 7; reading 25. "Purging a page under a kept lock is number 10".
    pub fn purge(&mut self, page: u32) -> Answered {
        if page >= PAGES as u32 {
            return Err(Number::Range);
        }
        let page = page as u8;
        let open = self.open.as_ref();
        if open.and_then(Transaction::requested_page) == Some(page) {
            return Err(Number::Waiting);
        }
        let used = open.map_or(0, Transaction::used);
        let used = used & page_bit(page) != 0;
        if used || self.keeps(page) || self.cached[page as usize].is_none() {
            return Err(Number::Kept);
        }
        self.cached[page as usize] = None;
        self.send(Answer::Purged, Up::Purge { page })
    }

    /// Number 7: "an owner acts while a request or commit is out".
    fn nothing_out(&self) -> Result<(), Number> {
        match &self.open {
            Some(transaction) if transaction.out.is_some() => Err(Number::Waiting),
            _ => Ok(()),
        }
    }

    /// The open transaction with nothing out, else number 7 or 8.
    fn acting(&mut self) -> Result<&mut Transaction, Number> {
        self.nothing_out()?;
        self.open.as_mut().ok_or(Number::Closed)
    }

    /// "an available cached object is read locally"
    fn available(&self, address: u8) -> Option<u64> {
        let page = self.cached[page_of(address) as usize].as_ref()?;
        page.available(address)
    }

    /// "is requested (1)", "else sends 2", "else sends 1": only a locking station's write is a 2.
    fn request(&mut self, out: Out) -> Answered {
        let transaction = self.latest;
        let read = |address: u8| Up::Read {
            address,
            transaction,
        };
        let message = match &out {
            Out::Read(address) => read(*address),
            Out::Write(writing) if self.kind.locks() => Up::Write {
                page: writing.page(),
                objects: self.to_be_asked(writing),
                transaction,
            },
            // one object, so the lowest
            Out::Write(writing) => {
                let object = self.to_be_asked(writing).trailing_zeros() as u8;
                read(address(writing.page(), object))
            }
            Out::Commit => unreachable!("a commit is no request"),
        };
        self.acting()?.out = Some(out);
        self.send(Answer::Waits, message)
    }

    /// "one version for each entry of its record, in record order ...; from a locking station all are 0"
    fn versions(&self, entries: impl Iterator<Item = u8>) -> Vec<u32> {
        let version = |address: u8| match &self.open {
            Some(open) if !self.kind.locks() => open.seen.get(&address).copied().unwrap_or(0),
            _ => 0,
        };
        entries.map(version).collect()
    }

    /// The copy's version is kept when an object is first used.
    fn first_use(&mut self, address: u8) {
        let page = self.cached[page_of(address) as usize].as_ref();
        let version = page.map_or(0, |page| page.versions[object_of(address) as usize]);
        if let Some(open) = &mut self.open {
            open.seen.entry(address).or_insert(version);
        }
    }

    fn send(&self, answer: Answer, message: Up) -> Answered {
        let sent = vec![message.encode(self.number)];
        Ok(Done { answer, sent })
    }
}

/// Document 02, reading 21: 17 and 18 fit by their page, for they name no object.
fn answers(message: &PageMessage, writing: &Writing) -> bool {
    match message.grant {
        Grant::Page => writing.has(message.address),
        Grant::Object | Grant::Whole => writing.page() == page_of(message.address),
    }
}

/// The step.
impl Station {
    pub fn step(&mut self, bytes: &[u8]) -> Answered {
        let (station, message) = Down::decode(bytes, self.number)?;
        // reading 13: "byte 1 is this station; 17 to 20 for locking, 23 for validating"
        if station != self.number || !self.takes(&message) {
            return Err(Number::Unexpected);
        }
        match message {
            Down::Page(page) => self.page_arrives(&page),
            Down::DeEscalate { page, transaction } => self.de_escalate(page, transaction),
            Down::Callback {
                requester,
                transaction,
                objects,
            } => self.call_back(
                requester,
                Callback {
                    transaction,
                    objects,
                },
            ),
            Down::Committed {
                transaction,
                commit,
            } => self.committed(transaction, commit),
            Down::Aborted { transaction, cause } => self.aborted(transaction, cause),
            Down::Invalidate { objects } => self.invalidate(&objects),
        }
    }

    fn takes(&self, message: &Down) -> bool {
        match message {
            Down::Page(page) => page.grant == Grant::Page || self.kind.locks(),
            Down::DeEscalate { .. } | Down::Callback { .. } => self.kind.locks(),
            Down::Invalidate { .. } => !self.kind.locks(),
            Down::Committed { .. } | Down::Aborted { .. } => true,
        }
    }

    /// "the delivery that brings the page gives the owner's answer"
    fn page_arrives(&mut self, message: &PageMessage) -> Answered {
        let wants_lock = self.kind.locks();
        let locks = message.grant != Grant::Page;
        let Some(open) = self.open_as(message.transaction) else {
            return self.page_for_another(message);
        };
        let written = match open.out {
            Some(Out::Read(address)) if address == message.address && !locks => None,
            Some(Out::Write(writing)) if locks == wants_lock && answers(message, &writing) => {
                Some(writing)
            }
            _ => return Err(Number::Unexpected),
        };
        self.take_page(message);
        match written {
            Some(writing) => self.write_arrived(message.grant, &writing),
            None => self.read_arrived(message),
        }
    }

    /// Reading 14: "A 16 for any begun validating transaction other than the open one is taken and ignored".
    fn page_for_another(&self, message: &PageMessage) -> Answered {
        if !self.kind.locks() && message.transaction <= self.latest {
            answered(Answer::Nothing)
        } else {
            Err(Number::Unexpected)
        }
    }

    /// "An arriving page replaces the copy save for the transaction's own values."
    fn take_page(&mut self, message: &PageMessage) {
        let page = page_of(message.address);
        self.cached[page as usize] = Some(Page::of(message));
        self.lay_own_values(page);
    }

    fn read_arrived(&mut self, message: &PageMessage) -> Answered {
        let value = message.values[object_of(message.address) as usize];
        self.first_use(message.address);
        if let Some(transaction) = &mut self.open {
            transaction.out = None;
            transaction.reads.insert(message.address, value);
        }
        answered(Answer::Value(value))
    }

    /// "all are written when the grant arrives": those that were locked before too.
    fn write_arrived(&mut self, grant: Grant, writing: &Writing) -> Answered {
        let page = writing.page();
        if let Some(transaction) = &mut self.open {
            transaction.out = None;
            match grant {
                Grant::Page => (),
                Grant::Object => transaction.locked.join(page, writing.objects()),
                Grant::Whole => self.whole |= page_bit(page),
            }
        }
        self.write_here(writing);
        answered(Answer::Written)
    }

    /// "send 8 with the objects written on that page, empty if that transaction is over; if it is open, the whole
    /// lock becomes locks on those objects": without one nothing becomes a lock; reading 15. Document 02, wish 10: a keeping
    /// station "answers 8 with its open transaction's written set and gives up the whole lock. Such an 8 names the open
    /// transaction, else the 18's transaction".
    fn de_escalate(&mut self, page: u8, named: u32) -> Answered {
        let transaction = match &self.open {
            Some(_) if self.kind.keeps() => self.latest,
            _ => named,
        };
        let open = self.open_as(transaction);
        let written = open.map(|open| open.written_on(page));
        if self.kind.keeps() || written.is_some() {
            self.give_up_whole(page, written.unwrap_or(0));
        }
        let message = Up::WrittenSet {
            page,
            transaction,
            written: written.unwrap_or(0),
        };
        self.send(Answer::Nothing, message)
    }

    fn give_up_whole(&mut self, page: u8, written: ObjectSet) {
        if self.has_whole(page) {
            self.whole &= !page_bit(page);
            if let Some(open) = &mut self.open {
                open.locked.join(page, written);
            }
        }
    }

    fn call_back(&mut self, requester: u8, callback: Callback) -> Answered {
        let open = self.open.as_ref();
        if open.is_some_and(|open| open.uses_any(&callback.objects)) {
            // "send 6 and keep the callback, a newer one from that requester replacing it"
            let transaction = callback.transaction;
            self.kept.insert(requester, callback);
            let busy = Up::Busy {
                requester,
                transaction,
            };
            return self.send(Answer::Nothing, busy);
        }
        let done = self.call_back_done(requester, &callback);
        self.send(Answer::Nothing, done)
    }

    /// "mark the named objects unavailable, drop each cached page named on which the transaction has read or written
    /// nothing and for which no request is out, and send 7"; of a page under a kept lock "no callback drops one".
    fn call_back_done(&mut self, requester: u8, callback: &Callback) -> Up {
        let open = self.open.as_ref();
        let used = open.map_or(0, Transaction::used);
        let requested = open.and_then(Transaction::requested_page);
        let mut dropped = 0;
        for page in rising(callback.objects.pages()) {
            let keeps = self.keeps(page);
            let Some(copy) = &mut self.cached[page as usize] else {
                continue;
            };
            copy.unavailable |= callback.objects.on(page);
            if used & page_bit(page) == 0 && requested != Some(page) && !keeps {
                self.cached[page as usize] = None;
                dropped |= page_bit(page);
            }
        }
        Up::Done {
            requester,
            transaction: callback.transaction,
            dropped,
        }
    }

    /// "on 21 the written objects, no longer their pages, take the commit number"
    fn committed(&mut self, transaction: u32, commit: u32) -> Answered {
        match self.open_as(transaction) {
            Some(open) if open.out == Some(Out::Commit) => (),
            _ => return Err(Number::Unexpected),
        }
        let written: Vec<u8> = match &self.open {
            Some(open) => open.writes.keys().copied().collect(),
            None => Vec::new(),
        };
        for address in written {
            if let Some(copy) = &mut self.cached[page_of(address) as usize] {
                copy.versions[object_of(address) as usize] = commit;
            }
        }
        self.ended(Answer::Committed(commit))
    }

    /// Reading 13: "22 any wait of the open transaction".
    fn aborted(&mut self, transaction: u32, cause: Cause) -> Answered {
        match self.open_as(transaction) {
            Some(open) if open.out.is_some() => (),
            _ => return Err(Number::Unexpected),
        }
        self.undo();
        self.ended(Answer::Aborted(cause))
    }

    /// "the station marks those objects unavailable, and its transaction, if no commit is out, ends if it used one"
    fn invalidate(&mut self, objects: &Addresses) -> Answered {
        for page in rising(objects.pages()) {
            if let Some(copy) = &mut self.cached[page as usize] {
                copy.unavailable |= objects.on(page);
            }
        }
        match &self.open {
            Some(open) if open.uses_any(objects) && open.out != Some(Out::Commit) => {
                self.undo();
                self.ended(Answer::Aborted(Cause::Version))
            }
            _ => answered(Answer::Nothing),
        }
    }

    fn open_as(&mut self, transaction: u32) -> Option<&mut Transaction> {
        let latest = self.latest;
        self.open.as_mut().filter(|_| latest == transaction)
    }

    /// Own values stand in the copy, whatever arrived.
    fn lay_own_values(&mut self, page: u8) {
        if let (Some(copy), Some(open)) = (&mut self.cached[page as usize], &self.open) {
            for (address, value) in &open.writes {
                if page_of(*address) == page {
                    copy.values[object_of(*address) as usize] = *value;
                }
            }
        }
    }

    /// As before document 02's wish 6, to measure what the wish changes: all objects of a page have the highest version on it.
    pub fn versions_of_pages(&mut self) {
        for page in self.cached.iter_mut().flatten() {
            let version = page.versions.into_iter().max().unwrap_or(0);
            page.versions = [version; OBJECTS];
        }
    }

    fn written_pages(&self) -> PageSet {
        self.open.as_ref().map_or(0, Transaction::written_pages)
    }

    /// "However aborted, a locking station marks written objects unavailable; a validating one drops written pages."
    fn undo(&mut self) {
        let written = self.written_pages();
        if !self.kind.locks() {
            return self.drop_pages(written);
        }
        for page in rising(written) {
            let objects = self.open.as_ref().map_or(0, |open| open.written_on(page));
            if let Some(copy) = &mut self.cached[page as usize] {
                copy.unavailable |= objects;
            }
        }
    }

    fn drop_pages(&mut self, pages: PageSet) {
        for page in rising(pages) {
            self.cached[page as usize] = None;
        }
    }

    fn ended(&mut self, answer: Answer) -> Answered {
        let mut sent = Vec::new();
        self.end(&mut sent);
        Ok(Done { answer, sent })
    }

    /// "Kept callbacks are done so, by rising requester, when the transaction ends, behind its 4."
    fn end(&mut self, sent: &mut Vec<Vec<u8>>) {
        self.open = None;
        if !self.kind.keeps() {
            self.whole = 0;
        }
        for (requester, callback) in std::mem::take(&mut self.kept) {
            let done = self.call_back_done(requester, &callback);
            sent.push(done.encode(self.number));
        }
    }
}

/// What a check of a whole line looks at.
impl Station {
    pub fn kind(&self) -> Kind {
        self.kind
    }

    pub fn latest(&self) -> u32 {
        self.latest
    }

    pub fn is_open(&self) -> bool {
        self.open.is_some()
    }

    pub fn waits(&self) -> bool {
        self.nothing_out().is_err()
    }

    /// Its commit is out.
    pub fn commits(&self) -> bool {
        let out = self.open.as_ref().and_then(|open| open.out.as_ref());
        out == Some(&Out::Commit)
    }

    /// How many objects the write that is out will write.
    pub fn asks_for(&self) -> u32 {
        match self.open.as_ref().and_then(|open| open.out.as_ref()) {
            Some(Out::Write(writing)) => writing.objects().count_ones(),
            _ => 0,
        }
    }

    pub fn has_kept(&self) -> bool {
        !self.kept.is_empty()
    }

    /// The available objects of the pages cached, with their versions.
    pub fn copies(&self) -> impl Iterator<Item = (u8, u32, u64)> + '_ {
        (0..=u8::MAX).filter_map(|address| {
            let value = self.available(address)?;
            let page = self.cached[page_of(address) as usize].as_ref()?;
            Some((address, page.versions[object_of(address) as usize], value))
        })
    }

    /// Objects locked, and pages locked whole.
    pub fn locks(&self) -> (Addresses, PageSet) {
        let open = self.open.as_ref();
        let objects = open.map_or_else(Default::default, |open| open.locked);
        (objects, self.whole)
    }

    /// What the rules leave behind every call, beside what `state::decode` asks; else no run reaches the state.
    pub fn keeps_rules(&self) -> bool {
        let (locked, whole) = self.locks();
        let Some(open) = &self.open else {
            return self.kept.is_empty() && (self.kind.keeps() || whole == 0);
        };
        let used_are_cached = open.used() & !self.cached() == 0;
        let locks = match self.kind.locks() {
            true => open.writes.keys().all(|address| self.holds(*address)),
            false => locked == Addresses::default() && whole == 0 && self.kept.is_empty(),
        };
        used_are_cached && locks
    }

    /// Pages that the open transaction has read or written on.
    pub fn used(&self) -> PageSet {
        self.open.as_ref().map_or(0, Transaction::used)
    }

    pub fn cached(&self) -> PageSet {
        (0..PAGES as u8)
            .filter(|page| self.cached[*page as usize].is_some())
            .fold(0, |pages, page| pages | page_bit(page))
    }
}
