//! The server in the shape of the C interface: numbers for answers, lent buffers for results.

use super::lent::BUFFER;
use super::message;
use super::server::{state, Server, Step};
use super::sets::STATIONS;
use super::{Kind, Number, LONGEST};
use crate::numbers::OK;

/// "128 messages", "the server's record buffer 7,040"
pub const MESSAGES: usize = 128 * message::LENGTH;
pub const RECORDS: usize = STATIONS * LONGEST;
/// Messages, bytes of records.
pub const SERVED: usize = 2;

/// What is lent to a step.
pub struct Lent<'a> {
    pub state: &'a mut [u8],
    pub messages: &'a mut [u8],
    pub records: &'a mut [u8],
    pub served: &'a mut [u64],
}

/// What a step is lent beside its state.
#[derive(PartialEq)]
pub struct Results {
    pub messages: Vec<u8>,
    pub records: Vec<u8>,
    pub served: [u64; SERVED],
}

/// All 0.
impl Default for Results {
    fn default() -> Results {
        Results {
            messages: vec![0; MESSAGES],
            records: vec![0; RECORDS],
            served: [0; SERVED],
        }
    }
}

impl Results {
    #[inline]
    pub fn lent<'a>(&'a mut self, state: &'a mut [u8]) -> Lent<'a> {
        Lent {
            state,
            messages: &mut self.messages,
            records: &mut self.records,
            served: &mut self.served,
        }
    }
}

impl Lent<'_> {
    /// Not number 1.
    pub fn fits(&self) -> bool {
        state::valid(self.state)
            && self.messages.len() >= MESSAGES
            && self.records.len() >= RECORDS
            && self.served.len() >= SERVED
    }

    /// The step of a server whose bytes are lent; the number.
    pub fn step(&mut self, message: &[u8], server: &mut Server) -> u32 {
        if !self.fits() {
            return BUFFER;
        }
        match server.step(message) {
            Ok(step) => self.accept(message, &step, server),
            Err(number) => number as u32,
        }
    }

    /// Lays what an accepted step gives into the buffers; what lies behind it stays.
    pub fn accept(&mut self, message: &[u8], step: &Step, server: &Server) -> u32 {
        let messages = step.sent.concat();
        let records = step.records.concat();
        self.messages[..messages.len()].copy_from_slice(&messages);
        self.records[..records.len()].copy_from_slice(&records);
        let served = [step.sent.len() as u64, records.len() as u64];
        self.served[..SERVED].copy_from_slice(&served);
        state::lay_step(message, server, self.state);
        OK
    }
}

/// A fresh state: number 1 for its length, then 4 for kinds that are not eight of 0 to 2.
pub fn fresh(kinds: &[u8], bytes: &mut [u8]) -> u32 {
    if bytes.len() != state::LENGTH {
        return BUFFER;
    }
    let Some(kinds) = kinds_of(kinds) else {
        return Number::Range as u32;
    };
    bytes.copy_from_slice(&state::encode(&Server::fresh(kinds, 0, [0; STATIONS])));
    OK
}

/// "8 bytes of 0, 1 or 2"
pub fn kinds_of(bytes: &[u8]) -> Option<[Kind; STATIONS]> {
    let kinds: Option<Vec<Kind>> = bytes.iter().map(|kind| Kind::of((*kind).into())).collect();
    kinds?.try_into().ok()
}
