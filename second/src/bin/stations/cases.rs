//! Damaged cases, each on a copy of a state, so that the line goes on.

use crate::judge::{sort, Judge};
use crate::line::{down_check, up_check, Line};
use crate::{messages, states};
use second::buffers::{Agreed, Difference, Room, GUARD};
use second::ffi::stations as proved;
use second::generate;
use second::line::call::Call;
use second::line::crossing::Crossing;
use second::line::damage;
use second::line::lent::{Lent, Operation, BUFFER};
use second::line::sets::{OBJECTS, STATIONS};
use second::line::spoil;
use second::line::station::state::{self, Field, LENGTH};
use second::line::station::Station;
use second::line::Kind;
use second::numbers::OK;
use second::random::Random;

const ADDRESSES_OUT: [u32; 7] = [256, 257, 263, 512, 65_536, 1 << 31, u32::MAX];
const PAGES_OUT: [u32; 8] = [32, 33, 63, 64, 255, 256, 1 << 31, u32::MAX];
const SETS_OUT: [u32; 5] = [256, 257, 511, 1 << 31, u32::MAX];
const STATIONS_OUT: [u32; 6] = [8, 9, 255, 256, 263, u32::MAX];
const KINDS_OUT: [u32; 6] = [3, 255, 256, 257, 258, u32::MAX];

/// What the cases of one line are drawn from.
pub struct Cases {
    random: Random,
}

impl Cases {
    pub fn new(seed: u64) -> Cases {
        Cases {
            random: Random::new(seed),
        }
    }

    /// One case.
    pub fn make(&mut self, line: &Line, crossing: &mut Crossing, judge: &mut Judge) -> Agreed<()> {
        match self.random.below(32) {
            0 => self.fresh(judge),
            1..=3 => self.down_check(line, crossing, judge),
            4..=8 => self.up_check(line, crossing, judge),
            _ => self.call(line, crossing, judge),
        }
    }

    fn call(&mut self, line: &Line, crossing: &mut Crossing, judge: &mut Judge) -> Agreed<()> {
        let random = &mut self.random;
        let real = &line.states[random.below(STATIONS)];
        let (mut damage, mut state) = states::damaged(random, real);
        let (argument, operation) = match random.below(16) {
            0..=6 => self.message(line, crossing, &state),
            _ => self.owners(),
        };
        let random = &mut self.random;
        if random.one_in(20) {
            damage = "of a wrong length";
            spoil::of_a_wrong_length::<Field>(random, &mut state);
        }
        let (roomy, room) = room(random);
        judge.tallies.states.count(damage);
        judge.tallies.arguments.count(argument);
        judge.tallies.rooms.count(roomy);
        judge.tallies.decoding.count(sort(&state));
        compare(&operation, &mut state, room, judge)
    }

    /// An owner's operation, its argument now and then out of range.
    fn owners(&mut self) -> (&'static str, Operation) {
        let random = &mut self.random;
        let out = random.one_in(8);
        let address = match out {
            true => random.pick(&ADDRESSES_OUT),
            false => random.byte().into(),
        };
        let page = match out {
            true => random.pick(&PAGES_OUT),
            false => random.below(32) as u32,
        };
        let operation = match random.below(10) {
            0 => Operation::Begin,
            1 => Operation::Commit,
            2 => Operation::Abort,
            3 => Operation::Purge(page),
            4 | 5 => Operation::Read(address),
            6 | 7 => Operation::Write(address, generate::value(random)),
            _ => write_set(random, page),
        };
        let takes_one = !matches!(
            operation,
            Operation::Begin | Operation::Commit | Operation::Abort
        );
        let sort = match out && takes_one {
            true => "out of range",
            false => "owner's",
        };
        (sort, operation)
    }

    /// A message, for this state or for any.
    fn message(
        &mut self,
        line: &Line,
        crossing: &mut Crossing,
        state: &[u8],
    ) -> (&'static str, Operation) {
        let random = &mut self.random;
        let (sort, message) = match random.below(16) {
            0..=3 => ("raw message", raw(crossing, line)),
            4..=11 => ("fitting message", messages::fitting(random, state)),
            12 | 13 => {
                let fitting = messages::fitting(random, state);
                let changed = damage::changed(random, fitting);
                ("fitting message changed", changed)
            }
            14 => {
                let like = raw(crossing, line);
                let bytes = spoil::of_any_length(random, &like);
                ("message of any length", bytes)
            }
            _ => {
                let commit = spoil::commit(random, &line.world.kinds);
                ("commit", commit)
            }
        };
        (sort, Operation::Step(message))
    }

    fn fresh(&mut self, judge: &mut Judge) -> Agreed<()> {
        let random = &mut self.random;
        let station = match random.one_in(3) {
            true => random.pick(&STATIONS_OUT),
            false => random.below(STATIONS) as u32,
        };
        let kind = match random.one_in(3) {
            true => random.pick(&KINDS_OUT),
            false => random.below(Kind::ALL.len()) as u32,
        };
        let length = random.pick(&[LENGTH, LENGTH, LENGTH, LENGTH - 1, LENGTH + 1, 0]);
        // what lies behind the state is not lent
        let mut bytes = random.bytes(length + GUARD);
        let expected = fresh_expected(station, kind, length, &bytes);
        let given = (proved::fresh(station, kind, &mut bytes[..length]), bytes);
        judge.tallies.checked("fresh", given.0);
        if given != expected {
            let text = format!(
                "fresh of station {station}, kind {kind}, {length} bytes\nsecond: number {}\nproved: number {}, or its state differs",
                expected.0, given.0
            );
            return Err(Difference(text));
        }
        Ok(())
    }

    fn down_check(
        &mut self,
        line: &Line,
        crossing: &mut Crossing,
        judge: &mut Judge,
    ) -> Agreed<()> {
        let real = &line.states[self.random.below(STATIONS)];
        let (_, Operation::Step(message)) = self.message(line, crossing, real) else {
            return Ok(());
        };
        let station = match self.random.below(6) {
            0 => self.random.pick(&STATIONS_OUT),
            1 => message.get(2).copied().unwrap_or(0).into(),
            _ => self.random.below(STATIONS) as u32,
        };
        down_check(station, &message, judge)
    }

    fn up_check(&mut self, line: &Line, crossing: &mut Crossing, judge: &mut Judge) -> Agreed<()> {
        let random = &mut self.random;
        let message = match random.below(4) {
            0 | 1 => spoil::commit(random, &line.world.kinds),
            2 => raw(crossing, line),
            _ => {
                let like = raw(crossing, line);
                damage::changed(random, like)
            }
        };
        let mut kinds = line.world.kinds.map(|kind| kind as u8).to_vec();
        match random.below(16) {
            0 => kinds.truncate(random.below(STATIONS)),
            1 => kinds.push(0),
            2 => kinds[random.below(STATIONS)] = random.pick(&[0, 1, 2, 3, 255]),
            _ => (),
        }
        up_check(&kinds, &message, judge)
    }
}

/// Compared in full where this implementation can hold the state, else as far as can be said.
fn compare(operation: &Operation, state: &mut [u8], room: Room, judge: &mut Judge) -> Agreed<()> {
    let number = match state::near(state) {
        _ if !state::valid(state) || !room.is_enough() || !operation.is_lent_enough() => {
            judge.call(operation, state, room, &[], |_| BUFFER)
        }
        Some(mut station) => {
            let free: &[Field] = match state::decode(state) {
                Some(_) => &[],
                None => &Field::OF_COPIES,
            };
            let answer = |lent: &mut Lent| lent.call(operation, &mut station);
            judge.call(operation, state, room, free, answer)
        }
        None => judge.call_on_any(operation, state, room),
    };
    number.map(|_| ())
}

/// Any set, mostly with as many values as there are objects.
fn write_set(random: &mut Random, page: u32) -> Operation {
    let any: u32 = random.byte().into();
    let one = 1 << random.below(OBJECTS);
    let set = match random.below(12) {
        0 => random.pick(&SETS_OUT),
        1 => 0,
        2..=5 => one,
        6..=8 => any & u32::from(random.byte()) | one,
        _ => any,
    };
    let many = match random.one_in(16) {
        true => random.below(OBJECTS),
        false => OBJECTS + random.pick(&[0, 0, 0, 1, 5]),
    };
    let values = (0..many).map(|_| generate::value(random)).collect();
    Operation::WriteSet(page, set, values)
}

/// Bytes of a raw message, whichever end they were meant for.
fn raw(crossing: &mut Crossing, line: &Line) -> Vec<u8> {
    match crossing.raw(&line.world) {
        Call::ServerRaw(bytes) | Call::StationRaw(_, bytes) => bytes,
        _ => Vec::new(),
    }
}

/// Mostly enough; else one of them is too short, or all.
fn room(random: &mut Random) -> (&'static str, Room) {
    match random.one_in(12) {
        true => ("short", Room::short::<Field>(random)),
        false => ("enough", Room::enough::<Field>(random)),
    }
}

/// "WAX_BUFFER length is not WAX_STATION_LENGTH", then the range.
fn fresh_expected(station: u32, kind: u32, length: usize, before: &[u8]) -> (u32, Vec<u8>) {
    match Kind::of(kind) {
        _ if length != LENGTH => (BUFFER, before.to_vec()),
        Some(kind) if (station as usize) < STATIONS => {
            let fresh = state::encode(&Station::fresh(station as u8, kind, 0));
            (OK, [&fresh, &before[length..]].concat())
        }
        _ => (4, before.to_vec()),
    }
}
