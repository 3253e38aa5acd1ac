//! Gives each call to a compiled station and compares number and every byte lent with what this implementation says.

use crate::tally::Tallies;
use second::buffers::{show_state, Agreed, Difference, Pair, Room};
use second::ffi::stations as proved;
use second::line::lent::{Lent, Operation};
use second::line::message::{self, Down, Up, LENGTH};
use second::line::places::Place;
use second::line::sets::STATIONS;
use second::line::station::state::{self, Field};
use second::line::Kind;
use second::numbers::OK;
use second::show::hex;

/// Damaged states may be twice as long as one.
const LONGEST: usize = 2 * state::LENGTH;

pub struct Judge {
    pub tallies: Tallies,
    show: bool,
    lent: Pair<Field>,
}

impl Judge {
    pub fn new(show: bool) -> Judge {
        Judge {
            tallies: Tallies::default(),
            show,
            lent: Pair::new(0, LONGEST),
        }
    }

    /// Buffers are filled anew from this seed on.
    pub fn seed(&mut self, seed: u64) {
        self.lent.seed(seed);
    }

    /// A call whose answer this implementation knows: `answer` does it to its own copy of the buffers. An accepted one
    /// changes the state; what it leaves in the free fields is not compared.
    pub fn call(
        &mut self,
        operation: &Operation,
        state: &mut [u8],
        room: Room,
        free: &[Field],
        answer: impl FnOnce(&mut Lent) -> u32,
    ) -> Agreed<u32> {
        self.lend(operation, state, room);
        let expected = answer(&mut self.lent.expected.lent());
        let number = self.proved(operation);
        if number == OK {
            self.lent.expected.take_fields(free, &self.lent.given);
        }
        let closed = number != OK || self.may_leave(state);
        if number != expected || !self.lent.same() || !closed {
            return self.differ(operation, state, room, &expected.to_string(), number);
        }
        state.copy_from_slice(self.lent.given.state());
        Ok(number)
    }

    /// A call on any valid state: it returns, a refusal changes nothing, and an accepted one leaves what it may.
    pub fn call_on_any(&mut self, operation: &Operation, state: &[u8], room: Room) -> Agreed<u32> {
        self.lend(operation, state, room);
        let number = self.proved(operation);
        if !may_answer(operation, state).contains(&number) {
            let expected = format!("one of {:?}", may_answer(operation, state));
            return self.differ(operation, state, room, &expected, number);
        }
        if number == OK && self.may_leave(state) {
            self.lent.take();
        }
        if !self.lent.same() {
            return self.differ(operation, state, room, "any", number);
        }
        Ok(number)
    }

    /// A call that lends nothing to write, answered by both.
    pub fn check(
        &mut self,
        name: &'static str,
        expected: u32,
        given: u32,
        call: impl FnOnce() -> String,
    ) -> Agreed<()> {
        self.tallies.checked(name, given);
        if expected == given {
            return Ok(());
        }
        let text = format!(
            "{name}: {}\nsecond: number {expected}\nproved: number {given}",
            call()
        );
        Err(Difference(text))
    }

    fn lend(&mut self, operation: &Operation, state: &[u8], room: Room) {
        if self.show {
            println!("{}", show(operation));
        }
        self.lent.lend(state, room);
    }

    fn proved(&mut self, operation: &Operation) -> u32 {
        let number = proved::call(operation, &mut self.lent.given.lent());
        self.tallies.called(operation, number);
        if number == OK {
            self.tallies.told(self.lent.given.numbers());
        }
        number
    }

    /// A valid state of the same station, which sends what the server's checks let pass, and what a station of its kind may.
    fn may_leave(&self, before: &[u8]) -> bool {
        let after = self.lent.given.state();
        let stays = |field: Field| field.byte(after) == field.byte(before);
        let sent = self.lent.given.sent();
        state::valid(after)
            && [Field::Station, Field::Kind].into_iter().all(stays)
            && sent.is_some_and(|(messages, commit)| {
                messages
                    .chunks(LENGTH)
                    .all(|message| passes(message, before))
                    && (commit.is_empty() || passes(commit, before))
            })
    }

    fn differ(
        &self,
        operation: &Operation,
        state: &[u8],
        room: Room,
        expected: &str,
        number: u32,
    ) -> Agreed<u32> {
        let mut text = format!(
            "call: {}\nlent: {room:?}\nsecond: number {expected}\nproved: number {number}\n",
            show(operation)
        );
        text += &self.lent.differences();
        text += &format!(
            "state before ({}):\n{}",
            sort(state),
            show_state::<Field>(state)
        );
        Err(Difference(text))
    }
}

/// A message from this state's station passes numbers 2 to 5, and is none of those that a validating one may not send.
fn passes(message: &[u8], state: &[u8]) -> bool {
    let Some(kind) = Kind::of(Field::Kind.byte(state).into()) else {
        return false;
    };
    if !kind.locks() && ![1, 3, 5].contains(&message::Field::Kind.byte(message)) {
        return false;
    }
    let decoded = Up::decode(message, &[kind; STATIONS]);
    decoded.is_ok_and(|(station, _)| station == Field::Station.byte(state))
}

/// What this implementation makes of a state.
pub const SORTS: [&str; 5] = [
    "by the rules",
    "no run reaches it",
    "decoded but for its copies",
    "valid but not decoded",
    "not valid",
];

pub fn sort(state: &[u8]) -> &'static str {
    SORTS[match state::decode(state) {
        Some(station) if station.keeps_rules() => 0,
        Some(_) => 1,
        None if state::near(state).is_some() => 2,
        None if state::valid(state) => 3,
        None => 4,
    }]
}

/// Numbers that do not depend on what a valid state says stand alone; else all that the call may give.
fn may_answer(operation: &Operation, state: &[u8]) -> &'static [u32] {
    match operation {
        Operation::Begin => &[OK, 7, 9, 11],
        Operation::Read(256..) | Operation::Write(256.., _) | Operation::Purge(32..) => &[4],
        Operation::Read(_) | Operation::Write(..) => &[OK, 7, 8, 15],
        Operation::WriteSet(32.., ..) | Operation::WriteSet(_, 0 | 256.., _) => &[4],
        Operation::WriteSet(..) => &[OK, 4, 7, 8, 15],
        Operation::Commit | Operation::Abort => &[OK, 7, 8],
        Operation::Purge(_) => &[OK, 7, 10],
        Operation::Step(message) => match Down::decode(message, Field::Station.byte(state)) {
            Ok(_) => &[OK, 6],
            Err(number) => [&[2], &[3], &[4]][number as usize - 2],
        },
    }
}

fn show(operation: &Operation) -> String {
    match operation {
        Operation::Step(message) => format!("step {}", hex(message)),
        other => format!("{other:?}"),
    }
}
