//! Heads that keep the page: heads that read their counters and add to them, each on a page of its own or all on shared ones, of
//! each kind. How many messages they need for each commit.

use super::repeats::{Line, Owners, Plan};
use super::server::Server;
use super::sets::address;
use super::station::Station;
use super::{Answer, Kind};
use crate::random::Random;
use std::fmt::{self, Display, Formatter};

/// Where a head counts.
#[derive(Clone, Copy, Debug, PartialEq, Eq)]
pub enum Place {
    /// On a page of its own.
    Alone,
    /// On one of as many pages as there are heads, mostly its own: one transaction in so many is on another.
    Sharing(usize),
    /// On any of them.
    Anywhere,
}

/// How many counters of a page a head adds to.
const COUNTERS: u8 = 2;

/// What the heads came to.
#[derive(Clone, Copy, Debug, PartialEq, Eq)]
pub struct Tally {
    kind: Kind,
    place: Place,
    heads: usize,
    pub commits: u64,
    pub aborts: u64,
    pub messages: u64,
    /// Of them those of kind 2.
    pub requests: u64,
}

impl Tally {
    pub fn of(kind: Kind, place: Place, heads: usize) -> Tally {
        Tally {
            kind,
            place,
            heads,
            commits: 0,
            aborts: 0,
            messages: 0,
            requests: 0,
        }
    }

    /// One more run.
    pub fn run(&mut self, seed: u64, calls: usize) {
        let line = Line::<Server, Station, Tally>::new(self.kind, self.heads, *self, seed);
        *self = line.run(calls);
    }

    /// Messages for each commit.
    pub fn each(&self) -> f64 {
        self.messages as f64 / self.commits as f64
    }
}

impl Owners for Tally {
    fn plan(&mut self, station: usize, random: &mut Random) -> Plan {
        let page = match self.place {
            Place::Sharing(one_in) if random.one_in(one_in) => random.below(self.heads),
            Place::Anywhere => random.below(self.heads),
            Place::Alone | Place::Sharing(_) => station,
        };
        let counters = (0..COUNTERS).map(|object| address(page as u8, object));
        Plan::counts(counters.collect())
    }

    fn ended(&mut self, _: usize, answer: Answer) {
        match answer {
            Answer::Committed(_) => self.commits += 1,
            _ => self.aborts += 1,
        }
    }

    fn sent(&mut self, messages: &[Vec<u8>]) {
        self.messages += messages.len() as u64;
        self.requests += messages.iter().filter(|message| message[0] == 2).count() as u64;
    }
}

impl Display for Tally {
    fn fmt(&self, f: &mut Formatter<'_>) -> fmt::Result {
        let Tally {
            commits,
            aborts,
            requests,
            ..
        } = self;
        write!(
            f,
            "{commits} commits, {aborts} aborts, {requests} write requests; {:.2} messages for each commit",
            self.each()
        )
    }
}
