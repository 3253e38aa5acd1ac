//! Rejected bottles: locking heads that touch three counters of one page, in an order of their own, and repeat what was aborted. How
//! often they lose (22, cause 1), with a request for each counter and, by document 02's wish 9, with one for the set.

use super::repeats::{Line, Owners, Plan};
use super::server::Server;
use super::sets::{address, OBJECTS};
use super::station::Station;
use super::{Answer, Cause, Kind};
use crate::random::Random;
use std::fmt::{self, Display, Formatter};

/// The page, and how many of its counters a rejected bottle touches.
const PAGE: u8 = 1;
const TOUCHED: usize = 3;

/// How a head touches its counters.
#[derive(Clone, Copy, Debug, PartialEq, Eq)]
pub struct Habit {
    /// It reads them first, to add to them; else it has their values from elsewhere.
    pub reads: bool,
    /// By one request.
    pub as_set: bool,
}

/// What the heads came to.
#[derive(Clone, Copy, Debug, PartialEq, Eq)]
pub struct Tally {
    habit: Habit,
    pub commits: u64,
    pub beaten: u64,
    pub messages: u64,
}

impl Tally {
    pub fn of(habit: Habit) -> Tally {
        Tally {
            habit,
            commits: 0,
            beaten: 0,
            messages: 0,
        }
    }

    /// One more run of so many heads.
    pub fn run(&mut self, heads: usize, seed: u64, calls: usize) {
        let line = Line::<Server, Station, Tally>::new(Kind::Locking, heads, *self, seed);
        *self = line.run(calls);
    }
}

impl Owners for Tally {
    fn plan(&mut self, _: usize, random: &mut Random) -> Plan {
        let mut objects: Vec<u8> = (0..OBJECTS as u8).collect();
        while objects.len() > TOUCHED {
            objects.remove(random.below(objects.len()));
        }
        let turn = random.below(objects.len());
        objects.rotate_left(turn);
        if random.one_in(2) {
            objects.swap(0, 1);
        }
        let counters = objects.into_iter().map(|object| address(PAGE, object));
        let plan = match self.habit.reads {
            true => Plan::counts(counters.collect()),
            false => Plan::sets(counters.collect()),
        };
        match self.habit.as_set {
            true => plan.at_once(),
            false => plan,
        }
    }

    fn ended(&mut self, _: usize, answer: Answer) {
        match answer {
            Answer::Committed(_) => self.commits += 1,
            Answer::Aborted(Cause::Cycle) => self.beaten += 1,
            other => panic!("{other:?} of a locking station"),
        }
    }

    fn sent(&mut self, messages: &[Vec<u8>]) {
        self.messages += messages.len() as u64;
    }
}

impl Display for Tally {
    fn fmt(&self, f: &mut Formatter<'_>) -> fmt::Result {
        let each = |number: u64| number as f64 / self.commits as f64;
        write!(
            f,
            "{} commits, beaten {} times; for each commit {:.3} times, {:.2} messages",
            self.commits,
            self.beaten,
            each(self.beaten),
            each(self.messages)
        )
    }
}
