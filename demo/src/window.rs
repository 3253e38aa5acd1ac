//! A station behind a window: its owner reads and writes bytes of 32 registers, and waits for the interrupt.

use crate::line::Fault;
use second::ffi::{stations, windows};
use second::line::call::Call;
use second::line::lent::Results;
use second::line::window::{Lent, ABORTED, COMMAND, DONE, FLAGS, MASK, REGISTERS, VALUE, WAITING};
use second::line::Answer;
use second::numbers::OK;

const PAGE: usize = 0;
const OBJECT: usize = 1;
const REFUSAL: usize = 3;
const COMMIT: usize = 12;

#[derive(Default)]
pub struct Window {
    registers: [u8; REGISTERS],
    /// Registers read and written, and deliveries that raised the interrupt.
    pub accesses: u64,
    pub interrupts: u64,
}

impl Window {
    /// The owner's call, by registers. What was told stands in the results, and the registers show it.
    pub fn call(
        &mut self,
        call: &Call,
        results: &mut Results,
        state: &mut [u8],
    ) -> Result<(), Fault> {
        self.write(MASK, DONE | ABORTED, results, state)?;
        self.write(FLAGS, DONE | ABORTED, results, state)?;
        let command = match *call {
            Call::Begin(_) => 1,
            Call::Read(_, address) => {
                self.name(address, results, state)?;
                2
            }
            Call::Write(_, address, value) => {
                self.name(address, results, state)?;
                for (at, byte) in VALUE.zip(value.to_le_bytes()) {
                    self.write(at, byte, results, state)?;
                }
                3
            }
            Call::Commit(_) => 4,
            Call::Abort(_) => 5,
            _ => unreachable!("a window has no command for `{call}`"),
        };
        self.write(COMMAND, command, results, state)?;
        match self.read(REFUSAL, state)? {
            0 => self.shows(results, state),
            number => Err(Fault::Refused(number.into())),
        }
    }

    /// The station takes a message.
    pub fn step(
        &mut self,
        message: &[u8],
        results: &mut Results,
        state: &mut [u8],
    ) -> Result<(), Fault> {
        self.write(FLAGS, DONE | ABORTED, results, state)?;
        accepted(windows::step(message, &mut self.lent(results, state)))?;
        self.interrupts += u64::from(self.interrupt(state)?);
        self.shows(results, state)
    }

    fn lent<'a>(&'a mut self, results: &'a mut Results, state: &'a mut [u8]) -> Lent<'a> {
        Lent {
            registers: &mut self.registers,
            station: results.lent(state),
        }
    }

    fn write(
        &mut self,
        at: usize,
        byte: u8,
        results: &mut Results,
        state: &mut [u8],
    ) -> Result<(), Fault> {
        self.accesses += 1;
        accepted(windows::write(
            at as u32,
            byte,
            &mut self.lent(results, state),
        ))
    }

    fn read(&mut self, at: usize, state: &[u8]) -> Result<u8, Fault> {
        self.accesses += 1;
        let mut byte = 0;
        accepted(windows::read(at as u32, &self.registers, state, &mut byte))?;
        Ok(byte)
    }

    fn interrupt(&self, state: &[u8]) -> Result<bool, Fault> {
        let mut level = 0;
        accepted(windows::interrupt(&self.registers, state, &mut level))?;
        Ok(level != 0)
    }

    fn number(&mut self, from: usize, width: usize, state: &[u8]) -> Result<u64, Fault> {
        let mut number = 0;
        for at in (from..from + width).rev() {
            number = number << 8 | u64::from(self.read(at, state)?);
        }
        Ok(number)
    }

    fn name(&mut self, address: u8, results: &mut Results, state: &mut [u8]) -> Result<(), Fault> {
        self.write(PAGE, address / 8, results, state)?;
        self.write(OBJECT, address % 8, results, state)
    }

    /// What was told can be read from the registers.
    fn shows(&mut self, results: &Results, state: &[u8]) -> Result<(), Fault> {
        let flags = self.read(FLAGS, state)?;
        let answer = stations::answer(&results.told).expect("an answer of the C interface");
        let up = match answer {
            Answer::Value(_) | Answer::Written | Answer::Committed(_) => DONE,
            Answer::Aborted(_) => ABORTED,
            _ => 0,
        };
        let same = match answer {
            Answer::Value(value) => self.number(*VALUE.start(), 8, state)? == value,
            Answer::Committed(commit) => self.number(COMMIT, 4, state)? == commit.into(),
            Answer::Waits => flags & WAITING != 0,
            _ => true,
        };
        if same && flags & (DONE | ABORTED) == up && self.interrupt(state)? == (up != 0) {
            Ok(())
        } else {
            Err(Fault::Registers)
        }
    }
}

fn accepted(number: u32) -> Result<(), Fault> {
    match number {
        OK => Ok(()),
        _ => Err(Fault::Refused(number)),
    }
}
