//! The same buffers twice: as this implementation says, and as the library leaves them.

use super::guarded::Stock;
use super::{Buffers, Lends, Room, MORE};
use crate::line::checks::Failure;
use crate::random::Random;

/// The buffers of a call that is made on both sides.
pub struct Pair<F> {
    pub expected: Buffers<F>,
    pub given: Buffers<F>,
    stock: Stock,
    random: Random,
}

impl<F: Lends> Pair<F> {
    /// For states of at most so many bytes; noise is drawn from this seed.
    pub fn new(seed: u64, longest: usize) -> Pair<F> {
        let mut random = Random::new(seed);
        let [messages, bytes, _] = F::LEAST;
        let longest = longest.max(messages + MORE).max(bytes + MORE);
        Pair {
            expected: Buffers::default(),
            given: Buffers::default(),
            stock: Stock::new(&mut random, longest),
            random,
        }
    }

    /// Buffers are filled anew from this seed on.
    pub fn seed(&mut self, seed: u64) {
        self.random = Random::new(seed);
    }

    /// Enough room for a call.
    pub fn room(&mut self) -> Room {
        Room::enough::<F>(&mut self.random)
    }

    /// The same in both.
    pub fn lend(&mut self, state: &[u8], room: Room) {
        let random = &mut self.random;
        self.given.fill(&self.stock, state, room, random);
        self.expected.copy(&self.given);
    }

    /// State and results as given, where these are to be taken as right.
    pub fn take(&mut self) {
        self.expected.take_fields(F::all(), &self.given);
        self.expected.take_sent(&self.given);
    }

    pub fn same(&self) -> bool {
        self.expected.same(&self.given)
    }

    /// A line for each buffer that differs.
    pub fn differences(&self) -> String {
        let lines = self.expected.differences(&self.given);
        lines.iter().map(|line| format!("{line}\n")).collect()
    }
}

/// Where two sides differ, in words.
pub struct Difference(pub String);

pub type Agreed<T> = Result<T, Difference>;

impl From<Failure> for Difference {
    fn from(failure: Failure) -> Difference {
        Difference(format!("{}: {}", failure.check, failure.detail))
    }
}
