//! Hot counters: heads that add to them in pairs and a panel that sums them all up, each repeating what was aborted; how
//! often the same station is beaten (22, cause 1) in a row, with ages kept and, as document 01 alone had it, without.

use super::repeats::{Line, Owners, Plan};
use super::server::{Server, Step};
use super::sets::STATIONS;
use super::station::Station;
use super::world::ServerEnd;
use super::{Answer, Cause, Kind, Number};
use crate::random::Random;
use std::fmt::{self, Display, Formatter};

/// The panel: the others are heads.
const PANEL: usize = 6;

/// The counters, each on a page of its own, and where the panel puts their sum.
const COUNTERS: [u8; 4] = [0, 8, 16, 24];
const TOTAL: u8 = 248;

/// A server that keeps no ages.
struct Forgetful(Server);

impl ServerEnd for Forgetful {
    fn fresh(kinds: [Kind; STATIONS], last: u32, latest: [u32; STATIONS]) -> Forgetful {
        Forgetful(Server::fresh(kinds, last, latest))
    }

    fn step(&mut self, message: &[u8]) -> Result<Step, Number> {
        let step = self.0.step(message);
        self.0.forget_ages();
        step
    }
}

/// What one station came to.
#[derive(Clone, Copy, Debug, Default, PartialEq, Eq)]
pub struct Tally {
    pub commits: u64,
    pub beaten: u64,
    /// Times beaten since its last commit, and the most of that.
    row: u64,
    pub most_in_a_row: u64,
}

impl Tally {
    fn committed(&mut self) {
        self.commits += 1;
        self.row = 0;
    }

    fn beaten(&mut self) {
        self.beaten += 1;
        self.row += 1;
        self.most_in_a_row = self.most_in_a_row.max(self.row);
    }

    fn join(&mut self, other: Tally) {
        self.commits += other.commits;
        self.beaten += other.beaten;
        self.most_in_a_row = self.most_in_a_row.max(other.most_in_a_row);
    }
}

/// What panel and heads came to.
#[derive(Clone, Copy, Debug, Default, PartialEq, Eq)]
pub struct Hot {
    tallies: [Tally; STATIONS],
}

impl Hot {
    pub fn join(&mut self, other: Hot) {
        for (tally, other) in self.tallies.iter_mut().zip(other.tallies) {
            tally.join(other);
        }
    }

    pub fn panel(&self) -> Tally {
        self.tallies[PANEL]
    }

    pub fn heads(&self) -> Tally {
        let mut heads = Tally::default();
        for (station, tally) in self.tallies.into_iter().enumerate() {
            if station != PANEL {
                heads.join(tally);
            }
        }
        heads
    }
}

impl Display for Hot {
    fn fmt(&self, f: &mut Formatter<'_>) -> fmt::Result {
        let row = |tally: Tally| {
            format!(
                "{} commits, beaten {} times, at most {} in a row",
                tally.commits, tally.beaten, tally.most_in_a_row
            )
        };
        write!(
            f,
            "panel: {}; heads: {}",
            row(self.panel()),
            row(self.heads())
        )
    }
}

/// A run with ages kept.
pub fn kept(seed: u64, calls: usize) -> Hot {
    run::<Server>(seed, calls)
}

/// The same owners and the same chance where no age is kept.
pub fn forgotten(seed: u64, calls: usize) -> Hot {
    run::<Forgetful>(seed, calls)
}

fn run<S: ServerEnd>(seed: u64, calls: usize) -> Hot {
    let owners = Hot::default();
    Line::<S, Station, Hot>::new(Kind::Locking, STATIONS, owners, seed).run(calls)
}

impl Owners for Hot {
    fn plan(&mut self, station: usize, random: &mut Random) -> Plan {
        if station == PANEL {
            return Plan::sums(COUNTERS.to_vec(), TOTAL);
        }
        let first = random.below(COUNTERS.len());
        let second = (first + 1 + random.below(COUNTERS.len() - 1)) % COUNTERS.len();
        Plan::counts(vec![COUNTERS[first], COUNTERS[second]])
    }

    fn ended(&mut self, station: usize, answer: Answer) {
        let tally = &mut self.tallies[station];
        match answer {
            Answer::Committed(_) => tally.committed(),
            Answer::Aborted(Cause::Cycle) => tally.beaten(),
            _ => (),
        }
    }
}
