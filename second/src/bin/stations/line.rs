//! A whole line beside eight compiled stations: each call at a station is made at both.

use crate::judge::Judge;
use second::buffers::{Agreed, Difference, Room};
use second::ffi::stations as proved;
use second::line::call::Call;
use second::line::lent::{Lent, Operation};
use second::line::message::{Down, Up};
use second::line::served::kinds_of;
use second::line::sets::STATIONS;
use second::line::station::state::{self, Field, LENGTH};
use second::line::station::Station;
use second::line::world::{Reply, World};
use second::line::Kind;
use second::numbers::OK;
use second::random::Random;
use std::array;

pub struct Line {
    pub world: World,
    /// The compiled stations.
    pub states: [Vec<u8>; STATIONS],
    random: Random,
}

impl Line {
    pub fn fresh(kinds: [Kind; STATIONS], seed: u64) -> Agreed<Line> {
        let world = World::fresh(kinds);
        let states = array::from_fn(|number| {
            let mut state = vec![0xA5; LENGTH];
            proved::fresh(number as u32, kinds[number] as u32, &mut state);
            state
        });
        if states != encoded(&world) {
            return Err(Difference(String::from("a fresh state differs")));
        }
        Ok(Line {
            world,
            states,
            random: Random::new(seed),
        })
    }

    /// One call of the line, and at its compiled station if it is one at a station.
    pub fn make(&mut self, call: &Call, judge: &mut Judge) -> Agreed<Reply> {
        let operation = Operation::of(call, &self.world);
        let reply = self.world.call(call);
        if let Call::Numbers(..) = call {
            self.states = encoded(&self.world);
        }
        if let (Some(number), Some(operation)) = (call.station(), operation) {
            self.compare(number, &operation, &reply, judge)?;
            self.sent_passes(&reply, judge)?;
        }
        Ok(reply)
    }

    fn compare(
        &mut self,
        number: u8,
        operation: &Operation,
        reply: &Reply,
        judge: &mut Judge,
    ) -> Agreed<()> {
        let after = &self.world.stations[number as usize];
        let state = &mut self.states[number as usize];
        let room = Room::enough::<Field>(&mut self.random);
        judge.call(operation, state, room, &[], |lent| {
            answer(lent, reply, after)
        })?;
        match operation {
            Operation::Step(message) => down_check(number.into(), message, judge),
            _ => Ok(()),
        }
    }

    /// What was sent is checked as the server would.
    fn sent_passes(&self, reply: &Reply, judge: &mut Judge) -> Agreed<()> {
        if let Reply::Accepted(outcome) = reply {
            let kinds = self.world.kinds.map(|kind| kind as u8);
            for message in &outcome.sent {
                up_check(&kinds, message, judge)?;
            }
        }
        Ok(())
    }
}

fn encoded(world: &World) -> [Vec<u8>; STATIONS] {
    world.stations.each_ref().map(state::encode)
}

/// What the line's own station answered.
fn answer(lent: &mut Lent, reply: &Reply, after: &Station) -> u32 {
    match reply {
        Reply::Accepted(outcome) => lent.accept(outcome.answer, &outcome.sent, after),
        Reply::Refused(number) => *number as u32,
        Reply::Ready | Reply::Misplaced | Reply::Empty => unreachable!("no station was called"),
    }
}

/// Numbers 2 to 4 of a message at this station; one above 7 is out of range.
pub fn down_check(station: u32, message: &[u8], judge: &mut Judge) -> Agreed<()> {
    let at = u8::try_from(station).unwrap_or(u8::MAX);
    let expected = match Down::decode(message, at) {
        Err(number) => number as u32,
        Ok(_) if station as usize >= STATIONS => 4,
        Ok(_) => OK,
    };
    let given = proved::down_check(station, message);
    judge.check("down check", expected, given, || {
        format!("station {station}, {message:02x?}")
    })
}

/// Numbers 2 to 5 of a message at a server with these kinds of stations; number 1 if they are none.
pub fn up_check(kinds: &[u8], message: &[u8], judge: &mut Judge) -> Agreed<()> {
    let expected = match kinds_of(kinds).map(|kinds| Up::decode(message, &kinds)) {
        None => 1,
        Some(Err(number)) => number as u32,
        Some(Ok(_)) => OK,
    };
    let given = proved::up_check(kinds, message);
    judge.check("up check", expected, given, || {
        format!("kinds {kinds:?}, {message:02x?}")
    })
}
