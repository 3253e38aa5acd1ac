//! A whole line, and beside each of its validating stations the same one behind a window: what the owner's call does
//! there, the registers do here.

use crate::behind::Behind;
use crate::judge::Judge;
use second::line::call::Call;
use second::line::lent::Operation;
use second::line::sets::STATIONS;
use second::line::world::{Reply, World};
use second::line::Kind;
use second::random::Random;
use std::array;

pub struct Line {
    pub world: World,
    pub windows: [Option<Behind>; STATIONS],
    random: Random,
}

impl Line {
    pub fn fresh(kinds: [Kind; STATIONS], seed: u64) -> Line {
        Line {
            world: World::fresh(kinds),
            windows: array::from_fn(|i| (!kinds[i].locks()).then(|| Behind::fresh(i as u8))),
            random: Random::new(seed),
        }
    }

    pub fn make(&mut self, call: &Call, judge: &mut Judge) -> Reply {
        let operation = Operation::of(call, &self.world);
        let reply = self.world.call(call);
        let number = call.station().map_or(0, usize::from);
        if let (Some(operation), Some(window)) = (operation, &mut self.windows[number]) {
            let done = window.call(&operation, &mut self.random, judge);
            let same = match (&reply, &done) {
                (Reply::Accepted(outcome), Ok(done)) => {
                    outcome.answer == done.answer && outcome.sent == done.sent
                }
                (Reply::Refused(number), Err(refused)) => number == refused,
                _ => false,
            };
            if !same {
                judge.differ(&format!(
                    "{call:?}: {reply:?} by the owner's call, {done:?} by registers"
                ));
            }
            if window.station != self.world.stations[number] || !window.is_window() {
                judge.differ(&format!("{call:?}: another state behind the window"));
            }
        }
        reply
    }
}
