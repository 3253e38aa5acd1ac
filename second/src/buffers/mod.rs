//! What is lent to a call of the proved library: noise in every buffer, at any alignment, between guards.

mod guarded;
mod lends;
mod pair;
mod show;

pub use guarded::GUARD;
pub use pair::{Agreed, Difference, Pair};
pub use show::show_state;

use crate::line::places::Place;
use crate::random::Random;
use guarded::{Guarded, Stock};
use std::marker::PhantomData;

/// A buffer may be longer than it must be by less than this.
const MORE: usize = 300;

/// What a call is lent beside its state: messages, one more buffer of bytes, and numbers for what it tells.
pub trait Lends: Place {
    const NAMES: [&'static str; 3];
    /// The least lengths.
    const LEAST: [usize; 3];

    type Lent<'a>;

    fn lent<'a>(
        state: &'a mut [u8],
        messages: &'a mut [u8],
        bytes: &'a mut [u8],
        numbers: &'a mut [u64],
    ) -> Self::Lent<'a>;

    /// Bytes of messages and of the other buffer that are sent; none where no call may tell these numbers.
    fn sent(numbers: &[u64]) -> Option<[usize; 2]>;
}

/// Lengths of what is lent beside the state.
#[derive(Clone, Copy, Debug, PartialEq, Eq)]
pub struct Room {
    lengths: [usize; 3],
    least: [usize; 3],
}

impl Room {
    pub fn is_enough(&self) -> bool {
        let enough = |(length, least)| length >= least;
        self.lengths.iter().zip(&self.least).all(enough)
    }

    /// Enough of each, often no more than that.
    pub fn enough<F: Lends>(random: &mut Random) -> Room {
        let more = [MORE, MORE, 5].map(|most| random.below(2) * random.below(most));
        Room {
            lengths: std::array::from_fn(|i| F::LEAST[i] + more[i]),
            least: F::LEAST,
        }
    }

    /// One of them is too short, or all.
    pub fn short<F: Lends>(random: &mut Random) -> Room {
        let mut room = Room::enough::<F>(random);
        let which = random.below(4);
        for (i, length) in room.lengths.iter_mut().enumerate() {
            if which == i || which == 3 {
                let least = F::LEAST[i];
                *length = random.pick(&[0, 1, least / 2, least - 1, least - 1]);
            }
        }
        room
    }
}

/// All that is lent to one call.
pub struct Buffers<F> {
    state: Guarded<u8>,
    messages: Guarded<u8>,
    bytes: Guarded<u8>,
    numbers: Guarded<u64>,
    of: PhantomData<F>,
}

impl<F: Lends> Default for Buffers<F> {
    fn default() -> Buffers<F> {
        Buffers {
            state: Guarded::default(),
            messages: Guarded::default(),
            bytes: Guarded::default(),
            numbers: Guarded::default(),
            of: PhantomData,
        }
    }
}

impl<F: Lends> Buffers<F> {
    fn fill(&mut self, stock: &Stock, state: &[u8], room: Room, random: &mut Random) {
        let [messages, bytes, numbers] = room.lengths;
        stock.fill_bytes(&mut self.state, state.len(), random);
        self.state.lent().copy_from_slice(state);
        stock.fill_bytes(&mut self.messages, messages, random);
        stock.fill_bytes(&mut self.bytes, bytes, random);
        stock.fill_words(&mut self.numbers, numbers, random);
    }

    fn copy(&mut self, other: &Buffers<F>) {
        self.state.copy(&other.state);
        self.messages.copy(&other.messages);
        self.bytes.copy(&other.bytes);
        self.numbers.copy(&other.numbers);
    }

    pub fn lent(&mut self) -> F::Lent<'_> {
        F::lent(
            self.state.lent(),
            self.messages.lent(),
            self.bytes.lent(),
            self.numbers.lent(),
        )
    }

    pub fn state(&self) -> &[u8] {
        self.state.seen()
    }

    /// What the call told.
    pub fn numbers(&self) -> &[u64] {
        self.numbers.seen()
    }

    /// These fields of the state as given by another, where that is to be taken as right.
    pub fn take_fields(&mut self, fields: &[F], other: &Buffers<F>) {
        for range in fields.iter().map(|field| field.range()) {
            self.state.take(range, &other.state);
        }
    }

    /// What was told and sent as given by another, if a call may tell that.
    fn take_sent(&mut self, other: &Buffers<F>) {
        if let Some((messages, bytes)) = other.sent() {
            self.numbers.take(0..F::LEAST[2], &other.numbers);
            self.messages.take(0..messages.len(), &other.messages);
            self.bytes.take(0..bytes.len(), &other.bytes);
        }
    }

    /// The messages and the other bytes sent; none where no call may tell that, or the buffers hold less.
    pub fn sent(&self) -> Option<(&[u8], &[u8])> {
        let [messages, bytes] = F::sent(self.numbers())?;
        let messages = self.messages.seen().get(..messages)?;
        let bytes = self.bytes.seen().get(..bytes)?;
        Some((messages, bytes))
    }

    /// Nothing differs, guards and what lies behind the results neither.
    fn same(&self, given: &Buffers<F>) -> bool {
        self.state == given.state
            && self.messages == given.messages
            && self.bytes == given.bytes
            && self.numbers == given.numbers
    }

    /// Each buffer in which the two differ, and where first.
    fn differences(&self, given: &Buffers<F>) -> Vec<String> {
        let [messages, bytes, numbers] = F::NAMES;
        let all = [
            self.numbers.difference(numbers, &given.numbers),
            self.messages.difference(messages, &given.messages),
            self.bytes.difference(bytes, &given.bytes),
            self.state.difference_of_state::<F>(&given.state),
        ];
        all.into_iter().flatten().collect()
    }
}
