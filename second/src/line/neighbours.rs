//! Neighbours: validating heads that count each on an object of its own of one page, and repeat what was aborted. How often
//! that is and what goes over the lines, with versions of objects and, as before document 02's wish 6, of pages.

use super::lent::Operation;
use super::little::WORD;
use super::message::{record_place, Field, LENGTH};
use super::places::Place;
use super::repeats::{Line, Owners, Plan};
use super::server::{Server, Step};
use super::sets::{address, PAGES, STATIONS};
use super::station::{Done, Station};
use super::world::{ServerEnd, StationEnd};
use super::{Answer, Kind, Number};
use crate::random::Random;
use std::fmt::{self, Display, Formatter};
use std::marker::PhantomData;

/// The heads' page.
const PAGE: u8 = 1;

/// Bytes of a message, and of a commit.
pub trait Lengths {
    fn message() -> u64;
    fn commit(now: &[u8]) -> u64;
}

/// As they are.
#[derive(Clone, Copy, Debug, Default, PartialEq, Eq)]
pub struct Now;

/// A message ended before the versions; "A commit is followed by 32 versions of 4 bytes ... and a record."
#[derive(Clone, Copy, Debug, Default, PartialEq, Eq)]
pub struct Before;

impl Lengths for Now {
    fn message() -> u64 {
        LENGTH as u64
    }

    fn commit(now: &[u8]) -> u64 {
        now.len() as u64
    }
}

impl Lengths for Before {
    fn message() -> u64 {
        Field::Versions.start() as u64
    }

    fn commit(now: &[u8]) -> u64 {
        let record = now.len() - record_place(now.len());
        Before::message() + (WORD * PAGES + record) as u64
    }
}

/// What the heads came to.
#[derive(Clone, Copy, Debug, Default, PartialEq, Eq)]
pub struct Tally<L> {
    pub commits: u64,
    /// By 23, or by 22 with cause 2.
    pub aborts: u64,
    pub messages: u64,
    pub bytes: u64,
    lengths: PhantomData<L>,
}

impl<L> Tally<L> {
    pub fn join(&mut self, other: Tally<L>) {
        self.commits += other.commits;
        self.aborts += other.aborts;
        self.messages += other.messages;
        self.bytes += other.bytes;
    }
}

impl<L: Lengths> Owners for Tally<L> {
    fn plan(&mut self, station: usize, _: &mut Random) -> Plan {
        Plan::counts(vec![address(PAGE, station as u8)])
    }

    fn ended(&mut self, _: usize, answer: Answer) {
        match answer {
            Answer::Committed(_) => self.commits += 1,
            _ => self.aborts += 1,
        }
    }

    fn sent(&mut self, messages: &[Vec<u8>]) {
        for message in messages {
            self.messages += 1;
            self.bytes += match message.len() {
                LENGTH => L::message(),
                _ => L::commit(message),
            };
        }
    }
}

impl<L> Display for Tally<L> {
    fn fmt(&self, f: &mut Formatter<'_>) -> fmt::Result {
        let each = |number: u64| number as f64 / self.commits as f64;
        write!(
            f,
            "{} commits, {} aborts; for each commit {:.2} aborts, {:.2} messages, {:.0} bytes",
            self.commits,
            self.aborts,
            each(self.aborts),
            each(self.messages),
            each(self.bytes)
        )
    }
}

/// A run of so many heads with versions of objects.
pub fn by_object(heads: usize, seed: u64, calls: usize) -> Tally<Now> {
    run::<Server, Station, Now>(heads, seed, calls)
}

/// The same owners and the same chance with versions of pages, in the messages of then.
pub fn by_page(heads: usize, seed: u64, calls: usize) -> Tally<Before> {
    run::<PageServer, PageStation, Before>(heads, seed, calls)
}

fn run<S: ServerEnd, T: StationEnd, L: Lengths + Default>(
    heads: usize,
    seed: u64,
    calls: usize,
) -> Tally<L> {
    let line = Line::<S, T, Tally<L>>::new(Kind::Validating, heads, Tally::default(), seed);
    line.run(calls)
}

/// A server whose versions are those of pages.
struct PageServer(Server);

impl ServerEnd for PageServer {
    fn fresh(kinds: [Kind; STATIONS], last: u32, latest: [u32; STATIONS]) -> PageServer {
        PageServer(Server::fresh(kinds, last, latest))
    }

    fn step(&mut self, message: &[u8]) -> Result<Step, Number> {
        let mut step = self.0.step(message)?;
        self.0.versions_of_pages(&mut step);
        Ok(step)
    }
}

/// A station whose versions are those of pages.
struct PageStation(Station);

impl StationEnd for PageStation {
    fn fresh(number: u8, kind: Kind, latest: u32) -> PageStation {
        PageStation(Station::fresh(number, kind, latest))
    }

    fn call(&mut self, operation: &Operation) -> Result<Done, Number> {
        let done = operation.on(&mut self.0)?;
        self.0.versions_of_pages();
        Ok(done)
    }
}
