//! Damaged cases, each on a copy of the server's state, so that the line goes on.

use crate::judge::{room, sort, Judge};
use crate::line::Line;
use crate::{messages, states};
use second::buffers::{Agreed, Difference, GUARD};
use second::ffi::server as proved;
use second::line::crossing::Crossing;
use second::line::served;
use second::line::server::state::{Field, LENGTH};
use second::line::sets::STATIONS;
use second::line::spoil;
use second::line::Kind;
use second::random::Random;

/// What the cases of one line are drawn from.
pub struct Cases {
    random: Random,
}

impl Cases {
    pub fn new(seed: u64) -> Cases {
        Cases {
            random: Random::new(seed),
        }
    }

    /// One case.
    pub fn make(&mut self, line: &Line, crossing: &mut Crossing, judge: &mut Judge) -> Agreed<()> {
        match self.random.one_in(24) {
            true => self.fresh(judge),
            false => self.step(line, crossing, judge),
        }
    }

    fn step(&mut self, line: &Line, crossing: &mut Crossing, judge: &mut Judge) -> Agreed<()> {
        let random = &mut self.random;
        let (mut damage, mut state) = states::damaged(random, &line.server);
        let (like, message) = messages::any(random, crossing, &line.world, &state);
        if random.one_in(20) {
            damage = "of a wrong length";
            spoil::of_a_wrong_length::<Field>(random, &mut state);
        }
        let (roomy, room) = room::<Field>(random);
        let tallies = &mut judge.tallies;
        tallies.states.count(damage);
        tallies.messages.count(like);
        tallies.rooms.count(roomy);
        tallies.sorts.count(sort(&state));
        judge.step(&message, &state, room)
    }

    fn fresh(&mut self, judge: &mut Judge) -> Agreed<()> {
        let random = &mut self.random;
        let many = random.pick(&[STATIONS, STATIONS, STATIONS, 0, STATIONS - 1, STATIONS + 1]);
        let mut kind = |_| random.pick(&Kind::ALL) as u8;
        let mut kinds: Vec<u8> = (0..many).map(&mut kind).collect();
        if let (true, Some(kind)) = (random.one_in(3), kinds.last_mut()) {
            *kind = random.pick(&[3, 4, 128, 255]);
        }
        let length = random.pick(&[LENGTH, LENGTH, LENGTH, LENGTH - 1, LENGTH + 1, 0]);
        // what lies behind the state is not lent
        let before = random.bytes(length + GUARD);
        let [mut expected, mut given] = [before.clone(), before];
        let numbers = [
            served::fresh(&kinds, &mut expected[..length]),
            proved::fresh(&kinds, &mut given[..length]),
        ];
        judge.tallies.fresh.count(numbers[1]);
        if numbers[0] != numbers[1] || expected != given {
            let text = format!(
                "fresh of kinds {kinds:?}, {length} bytes\nsecond: number {}\nproved: number {}, or its state differs",
                numbers[0], numbers[1]
            );
            return Err(Difference(text));
        }
        Ok(())
    }
}
