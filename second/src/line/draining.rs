//! Wish 4 beyond rings: deliveries alone come to an end, and so does every wait, once those who can act do.

use super::call::Call;
use super::checks::Failure;
use super::damage::ALL;
use super::world::{Reply, World};
use crate::random::Random;

/// After so many rounds nobody waits.
pub const MOST_ROUNDS: usize = 8;

/// "28 for each message up, 3 for each down, 376 for what is kept and still to be sent": docs/CLAUSE-14.md.
pub fn most_deliveries<S, T>(world: &World<S, T>) -> usize {
    let up: usize = ALL.iter().map(|s| world.up_length(*s)).sum();
    let down: usize = ALL.iter().map(|s| world.down_length(*s)).sum();
    28 * up + 3 * down + 376
}

/// A line that can be driven call by call.
pub trait Driven {
    type Failure: From<Failure>;
    fn world(&self) -> &World;
    fn make(&mut self, call: Call) -> Result<Reply, Self::Failure>;

    /// Nothing is under way.
    fn rests(&mut self) -> Result<(), Self::Failure> {
        Ok(())
    }
}

/// What a draining came to.
#[derive(Clone, Copy, Debug, Default, PartialEq, Eq)]
pub struct Drained {
    /// Rounds until nobody waited.
    pub rounds: usize,
    /// The most deliveries without an owner's call in between.
    pub deliveries: usize,
}

/// A line being drained: its luck, and how many deliveries were made of how many since an owner's last call.
pub struct Draining<'a, L: Driven> {
    line: &'a mut L,
    random: &'a mut Random,
    made: usize,
    most: usize,
    drained: Drained,
}

impl<'a, L: Driven> Draining<'a, L> {
    pub fn new(line: &'a mut L, random: &'a mut Random) -> Draining<'a, L> {
        let most = most_deliveries(line.world());
        Draining {
            line,
            random,
            made: 0,
            most,
            drained: Drained::default(),
        }
    }

    /// Deliveries in any order until nothing is under way, or one is refused; tells which.
    pub fn deliver_all(&mut self) -> Result<bool, L::Failure> {
        while let Some(call) = self.a_delivery() {
            if !self.deliver(call)? {
                return Ok(false);
            }
        }
        self.line.rests()?;
        Ok(true)
    }

    /// One of the ends first, and all that it leads to; nothing is under way before and behind.
    pub fn end_one(&mut self) -> Result<bool, L::Failure> {
        if let Some(station) = self.pick(can_act) {
            self.end(station)?;
        }
        self.deliver_all()
    }

    /// Rounds until every transaction is over. In a round each owner that does not wait as it begins ends its transaction,
    /// at any moment of it, others may end theirs, and messages are delivered until nothing is under way.
    pub fn end_all(mut self) -> Result<Drained, L::Failure> {
        for round in 0.. {
            if !self.line.world().stations.iter().any(|s| s.waits()) {
                break;
            }
            if round == MOST_ROUNDS {
                let detail = format!("somebody waits after {MOST_ROUNDS} rounds");
                let check = "waits end";
                return Err(Failure { check, detail }.into());
            }
            self.drained.rounds += 1;
            self.round()?;
        }
        // nobody waits, so one more ends them all
        self.round()?;
        Ok(self.drained)
    }

    fn round(&mut self) -> Result<(), L::Failure> {
        let world = self.line.world();
        let mut acting: Vec<u8> = ALL.into_iter().filter(|s| can_act(world, *s)).collect();
        loop {
            if !acting.is_empty() && self.random.one_in(4) {
                let at = self.random.below(acting.len());
                self.end(acting.swap_remove(at))?;
            } else if self.random.one_in(16) {
                // somebody who has stopped waiting meanwhile
                if let Some(station) = self.pick(can_act) {
                    self.end(station)?;
                }
            } else if let Some(call) = self.a_delivery() {
                self.deliver(call)?;
            } else if acting.is_empty() {
                return self.line.rests();
            }
        }
    }

    fn deliver(&mut self, call: Call) -> Result<bool, L::Failure> {
        if self.made == self.most {
            let detail = format!("more than {} deliveries", self.most);
            let check = "deliveries come to an end";
            return Err(Failure { check, detail }.into());
        }
        self.made += 1;
        self.drained.deliveries = self.drained.deliveries.max(self.made);
        let reply = self.line.make(call)?;
        Ok(!matches!(reply, Reply::Refused(_)))
    }

    /// Commit or abort; refused where the transaction has been ended meanwhile.
    fn end(&mut self, station: u8) -> Result<(), L::Failure> {
        let call = match self.random.one_in(4) {
            true => Call::Abort(station),
            false => Call::Commit(station),
        };
        self.line.make(call)?;
        self.made = 0;
        self.most = most_deliveries(self.line.world());
        Ok(())
    }

    fn a_delivery(&mut self) -> Option<Call> {
        let world = self.line.world();
        let up = ALL.iter().filter(|s| world.up_length(**s) > 0);
        let down = ALL.iter().filter(|s| world.down_length(**s) > 0);
        let calls: Vec<Call> = up
            .map(|s| Call::Server(*s))
            .chain(down.map(|s| Call::Station(*s)))
            .collect();
        let last = calls.len().checked_sub(1)?;
        calls.into_iter().nth(self.random.below(last + 1))
    }

    fn pick(&mut self, of: impl Fn(&World, u8) -> bool) -> Option<u8> {
        let world = self.line.world();
        let all: Vec<u8> = ALL.into_iter().filter(|s| of(world, *s)).collect();
        match all.is_empty() {
            true => None,
            false => Some(self.random.pick(&all)),
        }
    }
}

/// Its transaction is open, and its owner does not wait.
pub fn can_act(world: &World, station: u8) -> bool {
    let station = &world.stations[usize::from(station)];
    station.is_open() && !station.waits()
}
