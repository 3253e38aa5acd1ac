//! Owners that count and repeat what was aborted, on a line whose ends move by chance.

use super::call::Call;
use super::sets::{object_bit, object_of, page_of, OBJECTS, STATIONS};
use super::world::{Outcome, Reply, ServerEnd, StationEnd, World};
use super::{Answer, Kind};
use crate::random::Random;

/// What a transaction is to do: to read counters, then to add one to each, or to write their sum; or to set them unread.
#[derive(Clone, Debug, Default)]
pub struct Plan {
    counters: Vec<u8>,
    total: Option<u8>,
    read: Vec<u64>,
    written: usize,
    /// All are written by one call; they are of one page.
    at_once: bool,
}

impl Plan {
    /// Adds one to each.
    pub fn counts(counters: Vec<u8>) -> Plan {
        Plan {
            counters,
            ..Plan::default()
        }
    }

    /// Puts their sum there.
    pub fn sums(counters: Vec<u8>, total: u8) -> Plan {
        Plan {
            total: Some(total),
            ..Plan::counts(counters)
        }
    }

    /// Writes 1 to each, and reads none.
    pub fn sets(counters: Vec<u8>) -> Plan {
        Plan {
            read: vec![0; counters.len()],
            ..Plan::counts(counters)
        }
    }

    /// The counters as a set.
    pub fn at_once(self) -> Plan {
        Plan {
            at_once: true,
            ..self
        }
    }

    fn write_set(&self, station: u8) -> Call {
        let mut values = [0; OBJECTS];
        for (counter, read) in self.counters.iter().zip(&self.read) {
            values[object_of(*counter) as usize] = read + 1;
        }
        let set = self.counters.iter().fold(0, |set, a| set | object_bit(*a));
        Call::WriteSet(station, page_of(self.counters[0]).into(), set, values)
    }

    fn next(&self, station: u8) -> Call {
        if let Some(counter) = self.counters.get(self.read.len()) {
            return Call::Read(station, *counter);
        }
        match (self.total, self.counters.get(self.written)) {
            (Some(total), _) if self.written == 0 => {
                Call::Write(station, total, self.read.iter().sum())
            }
            (None, Some(_)) if self.at_once && self.written == 0 => self.write_set(station),
            (None, Some(counter)) if !self.at_once => {
                Call::Write(station, *counter, self.read[self.written] + 1)
            }
            _ => Call::Commit(station),
        }
    }
}

/// What owners want, and what is made of what they see.
pub trait Owners {
    /// The next transaction of a station's owner.
    fn plan(&mut self, station: usize, random: &mut Random) -> Plan;
    /// An end of one: committed, or aborted.
    fn ended(&mut self, station: usize, answer: Answer);
    /// What a call of either end sends.
    fn sent(&mut self, _messages: &[Vec<u8>]) {}
}

pub struct Line<S, T, O> {
    pub owners: O,
    world: World<S, T>,
    random: Random,
    /// As many of the stations, from 0, call.
    stations: usize,
    plans: [Plan; STATIONS],
    open: [bool; STATIONS],
    waits: [bool; STATIONS],
}

impl<S: ServerEnd, T: StationEnd, O: Owners> Line<S, T, O> {
    pub fn new(kind: Kind, stations: usize, owners: O, seed: u64) -> Line<S, T, O> {
        Line {
            owners,
            world: World::with_ends([kind; STATIONS]),
            random: Random::new(seed),
            stations,
            plans: Default::default(),
            open: [false; STATIONS],
            waits: [false; STATIONS],
        }
    }

    pub fn run(mut self, calls: usize) -> O {
        for _ in 0..calls {
            self.some_call();
        }
        self.owners
    }

    /// A station by chance: its next message up or down, or its owner's next operation.
    fn some_call(&mut self) {
        let station = self.random.below(self.stations);
        let number = station as u8;
        let call = match self.random.below(3) {
            0 => Call::Server(number),
            1 => Call::Station(number),
            _ if self.waits[station] => return,
            _ if !self.open[station] => Call::Begin(number),
            _ => self.plans[station].next(number),
        };
        match self.world.call(&call) {
            Reply::Accepted(Outcome { answer, sent, .. }) => {
                self.owners.sent(&sent);
                if !matches!(call, Call::Server(_)) {
                    self.heard(station, answer);
                }
            }
            Reply::Refused(refused) => panic!("{call}: {refused:?}"),
            _ => (),
        }
    }

    fn heard(&mut self, station: usize, answer: Answer) {
        self.waits[station] &= answer == Answer::Nothing;
        match answer {
            Answer::Begun(_) => {
                self.open[station] = true;
                self.plans[station] = self.owners.plan(station, &mut self.random);
            }
            Answer::Value(value) => self.plans[station].read.push(value),
            Answer::Waits => self.waits[station] = true,
            Answer::Written => self.plans[station].written += 1,
            Answer::Committed(_) | Answer::Aborted(_) => {
                self.open[station] = false;
                self.owners.ended(station, answer);
            }
            Answer::Dropped | Answer::Purged | Answer::Nothing => (),
        }
    }
}
