//! The register window, from document 02's wish 5: 32 byte registers that drive one validating station.

use super::lent::{self, BUFFER};
use super::places::Place;
use super::sets::{OBJECTS, PAGES};
use super::station::state::{self, Field};
use super::station::{Done, Station};
use super::{Answer, Kind, Number};
use crate::numbers::OK;
use std::ops::RangeInclusive;

/// "32 byte registers"
pub const REGISTERS: usize = 32;

/// "16, Register: an offset above 31"
pub const REGISTER: u32 = 16;

/// "Registers 0–1 are page and object, 2 is the command .., 3 the last command's refusal or 0"
const PAGE: usize = 0;
const OBJECT: usize = 1;
pub const COMMAND: usize = 2;
const REFUSAL: usize = 3;
/// "Registers 4–11 are the value and, read only, 12–15 the commit number."
pub const VALUE: RangeInclusive<usize> = 4..=11;
const COMMIT: RangeInclusive<usize> = 12..=15;
/// "Register 16 has flags", "the mask in register 17"
pub const FLAGS: usize = 16;
pub const MASK: usize = 17;

/// "bit 0 open, bit 1 waiting, bit 2 done, bit 3 aborted"
pub const OPEN: u8 = 1;
pub const WAITING: u8 = 1 << 1;
pub const DONE: u8 = 1 << 2;
pub const ABORTED: u8 = 1 << 3;

/// The registers; open and waiting are the station's to say.
#[derive(Clone, Debug, Default, PartialEq, Eq)]
pub struct Window {
    page: u8,
    object: u8,
    command: u8,
    refusal: u8,
    value: u64,
    commit: u32,
    done: bool,
    aborted: bool,
    mask: u8,
}

/// What the flags tell of the station: whether a transaction is open, and whether its owner waits.
#[derive(Clone, Copy, Debug, PartialEq, Eq)]
pub struct Seen {
    pub open: bool,
    pub waiting: bool,
}

impl Seen {
    /// In the bytes of a valid state.
    fn of(state: &[u8]) -> Seen {
        Seen {
            open: Field::Open.byte(state) != 0,
            waiting: Field::Wait.byte(state) != 0,
        }
    }
}

/// What a write came to: a command's answer, if it was one.
pub type Written = Option<Result<Done, Number>>;

impl Window {
    /// What lent registers say; none is number 1. Bytes of registers that are not there, and bits of flags that are not
    /// kept, are 0.
    pub fn decode(bytes: &[u8]) -> Option<Window> {
        let bytes: &[u8; REGISTERS] = bytes.try_into().ok()?;
        let flags = bytes[FLAGS];
        if flags & !(DONE | ABORTED) != 0 || bytes[MASK + 1..].iter().any(|byte| *byte != 0) {
            return None;
        }
        Some(Window {
            page: bytes[PAGE],
            object: bytes[OBJECT],
            command: bytes[COMMAND],
            refusal: bytes[REFUSAL],
            value: u64::from_le_bytes(bytes[VALUE].try_into().unwrap()),
            commit: u32::from_le_bytes(bytes[COMMIT].try_into().unwrap()),
            done: flags & DONE != 0,
            aborted: flags & ABORTED != 0,
            mask: bytes[MASK],
        })
    }

    fn raised(&self) -> u8 {
        u8::from(self.done) * DONE | u8::from(self.aborted) * ABORTED
    }

    /// As they are lent.
    pub fn encode(&self) -> [u8; REGISTERS] {
        let mut bytes = [0; REGISTERS];
        bytes[PAGE] = self.page;
        bytes[OBJECT] = self.object;
        bytes[COMMAND] = self.command;
        bytes[REFUSAL] = self.refusal;
        bytes[VALUE].copy_from_slice(&self.value.to_le_bytes());
        bytes[COMMIT].copy_from_slice(&self.commit.to_le_bytes());
        bytes[FLAGS] = self.raised();
        bytes[MASK] = self.mask;
        bytes
    }

    fn flags(&self, seen: Seen) -> u8 {
        u8::from(seen.open) * OPEN | u8::from(seen.waiting) * WAITING | self.raised()
    }

    /// "The interrupt is up exactly while flags and the mask in register 17 share a bit."
    pub fn interrupt(&self, seen: Seen) -> bool {
        self.flags(seen) & self.mask != 0
    }

    pub fn read(&self, offset: u32, seen: Seen) -> Result<u8, u32> {
        match usize::try_from(offset) {
            Ok(FLAGS) => Ok(self.flags(seen)),
            Ok(register) if register < REGISTERS => Ok(self.encode()[register]),
            _ => Err(REGISTER),
        }
    }

    pub fn write(&mut self, offset: u32, byte: u8, station: &mut Station) -> Result<Written, u32> {
        let register = usize::try_from(offset).unwrap_or(usize::MAX);
        match register {
            PAGE => self.page = byte,
            OBJECT => self.object = byte,
            COMMAND => return Ok(self.command(byte, station)),
            4..=11 => {
                let mut value = self.value.to_le_bytes();
                value[register - VALUE.start()] = byte;
                self.value = u64::from_le_bytes(value);
            }
            // "a one written to either clears it"
            FLAGS => {
                self.done &= byte & DONE == 0;
                self.aborted &= byte & ABORTED == 0;
            }
            MASK => self.mask = byte,
            // "they, read-only registers and other flag bits ignore writes"
            REFUSAL | 12..=15 | 18..=31 => (),
            _ => return Err(REGISTER),
        }
        Ok(None)
    }

    /// "1 begin, 2 read, 3 write, 4 commit, 5 abort; another value is only stored"
    fn command(&mut self, byte: u8, station: &mut Station) -> Written {
        self.command = byte;
        let answered = match byte {
            1 => station.begin(),
            2 => self.address().and_then(|address| station.read(address)),
            3 => {
                let value = self.value;
                self.address()
                    .and_then(|address| station.write(address, value))
            }
            4 => station.commit(),
            5 => station.abort(),
            _ => return None,
        };
        self.refusal = answered.as_ref().err().map_or(0, |number| *number as u8);
        if let Ok(done) = &answered {
            self.note(done.answer);
        }
        Some(answered)
    }

    /// Reading 8: page above 31 or object above 7 is 4, looked at by read and write only.
    fn address(&self) -> Result<u8, Number> {
        if usize::from(self.page) < PAGES && usize::from(self.object) < OBJECTS {
            Ok(self.page * OBJECTS as u8 + self.object)
        } else {
            Err(Number::Range)
        }
    }

    pub fn step(&mut self, message: &[u8], station: &mut Station) -> Result<Done, Number> {
        let done = station.step(message)?;
        self.note(done.answer);
        Ok(done)
    }

    /// "Done rises when read, write or commit succeeds, aborted when server or 23 ends the transaction"
    fn note(&mut self, answer: Answer) {
        match answer {
            Answer::Value(value) => {
                self.value = value;
                self.done = true;
            }
            Answer::Written => self.done = true,
            Answer::Committed(commit) => {
                self.commit = commit;
                self.done = true;
            }
            Answer::Aborted(_) => self.aborted = true,
            // "an owner's abort and begin raise nothing"
            Answer::Begun(_) | Answer::Waits | Answer::Dropped => (),
            Answer::Purged | Answer::Nothing => (),
        }
    }
}

/// The window of lent registers and a lent state; none is number 1, "which a locking station's state gets too".
pub fn decode(registers: &[u8], state: &[u8]) -> Option<Window> {
    let window = Window::decode(registers)?;
    let validating = |kind: Kind| !kind.locks();
    let fits = state::valid(state) && state::kind_of(state).is_some_and(validating);
    fits.then_some(window)
}

/// What is lent to a write or a step.
pub struct Lent<'a> {
    pub registers: &'a mut [u8],
    pub station: lent::Lent<'a>,
}

impl Lent<'_> {
    fn window(&self) -> Option<Window> {
        let window = decode(self.registers, self.station.state)?;
        self.station.fits().then_some(window)
    }

    /// Byte to register, on a station whose bytes are lent; the number.
    pub fn write(&mut self, offset: u32, byte: u8, station: &mut Station) -> u32 {
        let Some(mut window) = self.window() else {
            return BUFFER;
        };
        match window.write(offset, byte, station) {
            Err(number) => number,
            Ok(Some(Ok(done))) => self.accept(&window, &done, station),
            Ok(Some(Err(_)) | None) => {
                let nothing = Done {
                    answer: Answer::Nothing,
                    sent: Vec::new(),
                };
                self.accept(&window, &nothing, station)
            }
        }
    }

    pub fn step(&mut self, message: &[u8], station: &mut Station) -> u32 {
        let Some(mut window) = self.window() else {
            return BUFFER;
        };
        match window.step(message, station) {
            Err(number) => number as u32,
            Ok(done) => self.accept(&window, &done, station),
        }
    }

    fn accept(&mut self, window: &Window, done: &Done, station: &Station) -> u32 {
        self.registers.copy_from_slice(&window.encode());
        self.station.accept(done.answer, &done.sent, station)
    }
}

/// A register's byte; the number.
pub fn read(offset: u32, registers: &[u8], state: &[u8], byte: &mut u8) -> u32 {
    told(
        with(registers, state, |window, seen| window.read(offset, seen)),
        byte,
    )
}

/// 1 while the interrupt is up, else 0; the number.
pub fn interrupt(registers: &[u8], state: &[u8], level: &mut u8) -> u32 {
    told(
        with(registers, state, |window, seen| {
            Ok(window.interrupt(seen).into())
        }),
        level,
    )
}

fn with(
    registers: &[u8],
    state: &[u8],
    of: impl FnOnce(&Window, Seen) -> Result<u8, u32>,
) -> Result<u8, u32> {
    let window = decode(registers, state).ok_or(BUFFER)?;
    of(&window, Seen::of(state))
}

fn told(answer: Result<u8, u32>, byte: &mut u8) -> u32 {
    match answer {
        Ok(told) => {
            *byte = told;
            OK
        }
        Err(number) => number,
    }
}

#[cfg(test)]
mod tests {
    use super::*;
    use crate::line::station::Station;

    fn station() -> Station {
        Station::fresh(1, Kind::Validating, 0)
    }

    fn seen(station: &Station) -> Seen {
        Seen {
            open: station.is_open(),
            waiting: station.waits(),
        }
    }

    /// A command; what register 3 shows, and the flags.
    fn command(window: &mut Window, station: &mut Station, byte: u8) -> (u8, u8) {
        window.write(COMMAND as u32, byte, station).unwrap();
        let flags = window.read(FLAGS as u32, seen(station)).unwrap();
        (window.refusal, flags)
    }

    #[test]
    fn a_transaction_by_registers() {
        let (mut window, mut station) = (Window::default(), station());
        assert_eq!(command(&mut window, &mut station, 4), (8, 0));
        assert_eq!(command(&mut window, &mut station, 1), (0, OPEN));
        assert_eq!(command(&mut window, &mut station, 1), (9, OPEN));
        // "another value is only stored"
        assert_eq!(command(&mut window, &mut station, 6), (9, OPEN));
        window.write(0, 32, &mut station).unwrap();
        assert_eq!(command(&mut window, &mut station, 2), (4, OPEN));
        window.write(0, 1, &mut station).unwrap();
        assert_eq!(command(&mut window, &mut station, 2), (0, OPEN | WAITING));
        assert_eq!(command(&mut window, &mut station, 5), (7, OPEN | WAITING));
    }

    #[test]
    fn what_is_written_where() {
        let (mut window, mut station) = (Window::default(), station());
        for register in 0..REGISTERS as u32 {
            let before = window.encode();
            window.write(register, 0xF3, &mut station).unwrap();
            let changed = before != window.encode();
            let taken = matches!(register, 0..=2 | 4..=11 | 17);
            assert_eq!(changed, taken, "register {register}");
        }
        assert_eq!(window.write(32, 0, &mut station), Err(REGISTER));
        assert_eq!(window.read(32, seen(&station)), Err(REGISTER));
        assert_eq!(Window::decode(&window.encode()), Some(window));
    }

    #[test]
    fn flags_fall_by_a_one() {
        let (mut window, mut station) = (Window::default(), station());
        window.note(Answer::Written);
        window.note(Answer::Aborted(crate::line::Cause::Version));
        window.write(MASK as u32, ABORTED, &mut station).unwrap();
        assert!(window.interrupt(seen(&station)));
        window
            .write(FLAGS as u32, DONE | 0xF3, &mut station)
            .unwrap();
        assert!(window.interrupt(seen(&station)));
        assert_eq!(window.read(FLAGS as u32, seen(&station)), Ok(ABORTED));
        window.write(FLAGS as u32, ABORTED, &mut station).unwrap();
        assert!(!window.interrupt(seen(&station)));
        // the owner's own abort and begin raise nothing
        assert_eq!(command(&mut window, &mut station, 1), (0, OPEN));
        assert_eq!(command(&mut window, &mut station, 5), (0, 0));
    }
}
