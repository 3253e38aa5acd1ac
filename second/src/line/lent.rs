//! The stations in the shape of the C interface: numbers for answers, lent buffers for results.

use super::call::Call;
use super::message;
use super::sets::OBJECTS;
use super::station::state;
use super::station::{Done, Station};
use super::world::World;
use super::{Answer, Number, LIMIT};
use crate::numbers::OK;

/// "8 messages", and a commit of "at most 1,408, the station's buffer too"
pub const MESSAGES: usize = 8 * message::LENGTH;
pub const COMMIT: usize = message::commit_length(2 * LIMIT);
/// Answer, value, messages, commit bytes.
pub const TOLD: usize = 4;

/// Number 1, which a `Station` of its own cannot give.
pub const BUFFER: u32 = 1;

/// A call at a station, with arguments as wide as a caller can give them.
#[derive(Clone, Debug, PartialEq, Eq)]
pub enum Operation {
    Begin,
    Read(u32),
    Write(u32, u64),
    /// Page, set, and values by object.
    WriteSet(u32, u32, Vec<u64>),
    Commit,
    Abort,
    Purge(u32),
    Step(Vec<u8>),
}

/// What is lent to a call.
pub struct Lent<'a> {
    pub state: &'a mut [u8],
    pub messages: &'a mut [u8],
    pub commit: &'a mut [u8],
    pub told: &'a mut [u64],
}

impl Operation {
    /// What a call of the line asks of its station; none where its line is empty, or no station is called.
    pub fn of<S, T>(call: &Call, world: &World<S, T>) -> Option<Operation> {
        Some(match call {
            Call::Begin(_) => Operation::Begin,
            Call::Read(_, address) => Operation::Read((*address).into()),
            Call::Write(_, address, value) => Operation::Write((*address).into(), *value),
            Call::WriteSet(_, page, set, values) => {
                Operation::WriteSet(*page, (*set).into(), values.to_vec())
            }
            Call::Commit(_) => Operation::Commit,
            Call::Abort(_) => Operation::Abort,
            Call::Purge(_, page) => Operation::Purge(*page),
            Call::Station(station) => Operation::Step(world.first_down(*station)?.to_vec()),
            Call::StationRaw(_, bytes) => Operation::Step(bytes.clone()),
            Call::Server(_) | Call::ServerRaw(_) | Call::Fresh(_) | Call::Numbers(..) => {
                return None
            }
        })
    }

    /// "WAX_BUFFER ... values is too short"
    pub fn is_lent_enough(&self) -> bool {
        match self {
            Operation::WriteSet(_, _, values) => values.len() >= OBJECTS,
            _ => true,
        }
    }

    /// On this implementation's station.
    pub fn on(&self, station: &mut Station) -> Result<Done, Number> {
        match self {
            Operation::Begin => station.begin(),
            Operation::Read(address) => station.read(in_range(*address)?),
            Operation::Write(address, value) => station.write(in_range(*address)?, *value),
            Operation::WriteSet(page, set, values) => {
                let values = values.first_chunk().expect("a value for each object");
                station.write_set(*page, *set, values)
            }
            Operation::Commit => station.commit(),
            Operation::Abort => station.abort(),
            Operation::Purge(page) => station.purge(*page),
            Operation::Step(message) => station.step(message),
        }
    }
}

/// "WAX_RANGE (address above 255)", before any other number of an access.
fn in_range(address: u32) -> Result<u8, Number> {
    u8::try_from(address).map_err(|_| Number::Range)
}

/// What a call is lent beside its state.
#[derive(PartialEq)]
pub struct Results {
    pub messages: [u8; MESSAGES],
    pub commit: [u8; COMMIT],
    pub told: [u64; TOLD],
}

/// All 0.
impl Default for Results {
    fn default() -> Results {
        Results {
            messages: [0; MESSAGES],
            commit: [0; COMMIT],
            told: [0; TOLD],
        }
    }
}

impl Results {
    #[inline]
    pub fn lent<'a>(&'a mut self, state: &'a mut [u8]) -> Lent<'a> {
        Lent {
            state,
            messages: &mut self.messages,
            commit: &mut self.commit,
            told: &mut self.told,
        }
    }
}

impl Lent<'_> {
    /// Not number 1.
    pub fn fits(&self) -> bool {
        state::valid(self.state)
            && self.messages.len() >= MESSAGES
            && self.commit.len() >= COMMIT
            && self.told.len() >= TOLD
    }

    /// The call on a station whose bytes are lent; the number.
    pub fn call(&mut self, operation: &Operation, station: &mut Station) -> u32 {
        if !self.fits() || !operation.is_lent_enough() {
            return BUFFER;
        }
        match operation.on(station) {
            Ok(done) => self.accept(done.answer, &done.sent, station),
            Err(number) => number as u32,
        }
    }

    /// Lays what an accepted call gives into the buffers; what lies behind it stays.
    pub fn accept(&mut self, answer: Answer, sent: &[Vec<u8>], station: &Station) -> u32 {
        let (messages, commits): (Vec<&Vec<u8>>, Vec<&Vec<u8>>) = sent
            .iter()
            .partition(|bytes| bytes.len() == message::LENGTH);
        let (places, _) = self.messages.as_chunks_mut::<{ message::LENGTH }>();
        for (place, bytes) in places.iter_mut().zip(&messages) {
            place.copy_from_slice(bytes);
        }
        let commit = commits.first().map_or(&[][..], |bytes| bytes);
        self.commit[..commit.len()].copy_from_slice(commit);
        let [answer, value] = told(answer);
        let told = [answer, value, messages.len() as u64, commit.len() as u64];
        self.told[..TOLD].copy_from_slice(&told);
        state::lay(station, self.state);
        OK
    }
}

/// "what the owner is told", and "the value, transaction, commit number or cause that goes with it, else 0".
fn told(answer: Answer) -> [u64; 2] {
    match answer {
        Answer::Begun(transaction) => [1, transaction.into()],
        Answer::Value(value) => [2, value],
        Answer::Waits => [3, 0],
        Answer::Written => [4, 0],
        Answer::Committed(commit) => [5, commit.into()],
        Answer::Dropped => [6, 0],
        Answer::Aborted(cause) => [6, cause as u64],
        Answer::Purged => [7, 0],
        Answer::Nothing => [8, 0],
    }
}
