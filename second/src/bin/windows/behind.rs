//! A validating station behind a window: its owner's operations are made of writes to registers, and what it is told is
//! read from them.

use crate::judge::{Access, Judge, Kept};
use second::ffi::stations as proved;
use second::line::lent::{Operation, Results};
use second::line::station::state;
use second::line::station::{Done, Station};
use second::line::window::{self, ABORTED, COMMAND, DONE, FLAGS, MASK, OPEN, REGISTERS, WAITING};
use second::line::{Answer, Kind, Number};
use second::numbers::OK;
use second::random::Random;

const REFUSAL: u32 = 3;
const VALUE: u32 = 4;
const COMMIT: u32 = 12;

#[derive(Clone)]
pub struct Behind {
    /// This implementation's, driven by its own window.
    pub station: Station,
    pub kept: Kept,
}

impl Behind {
    pub fn fresh(number: u8) -> Behind {
        let station = Station::fresh(number, Kind::Validating, 0);
        let kept = Kept {
            registers: vec![0; REGISTERS],
            state: state::encode(&station),
        };
        Behind { station, kept }
    }

    /// A station that has no transaction number left.
    pub fn spent() -> Behind {
        let station = Station::fresh(5, Kind::Validating, u32::MAX);
        let state = state::encode(&station);
        let registers = vec![0; REGISTERS];
        Behind {
            station,
            kept: Kept { registers, state },
        }
    }

    /// The owner's operation or the delivery, through the registers.
    pub fn call(
        &mut self,
        operation: &Operation,
        random: &mut Random,
        judge: &mut Judge,
    ) -> Result<Done, Number> {
        self.clear(random, judge);
        match operation {
            Operation::Begin => self.command(1, judge),
            Operation::Read(address) => {
                self.name(*address, random, judge);
                self.command(2, judge)
            }
            Operation::Write(address, value) => {
                self.name(*address, random, judge);
                for (at, byte) in (VALUE..).zip(value.to_le_bytes()) {
                    self.write(at, byte, judge);
                }
                self.command(3, judge)
            }
            Operation::Commit => self.command(4, judge),
            Operation::Abort => self.command(5, judge),
            Operation::Step(message) => self.step(message, judge),
            // the window has no purge: its host calls the station's own
            Operation::Purge(page) => self.purge(*page, judge),
            // nor a write of a set
            Operation::WriteSet(page, set, values) => self.write_set(*page, *set, values, judge),
        }
    }

    fn write(&mut self, offset: u32, byte: u8, judge: &mut Judge) -> [u64; 4] {
        let room = judge.room();
        let told = judge.access(
            &Access::Write(offset, byte),
            &mut self.kept,
            room,
            &mut self.station,
        );
        told.unwrap_or_else(|number| {
            judge.differ(&format!("a write to {offset} is refused by {number}"))
        })
    }

    fn read(&self, offset: u32, judge: &mut Judge) -> u8 {
        let byte = judge.read(offset, &self.kept);
        byte.unwrap_or_else(|number| {
            judge.differ(&format!("a read of {offset} is refused by {number}"))
        })
    }

    fn flags(&self, judge: &mut Judge) -> u8 {
        self.read(FLAGS as u32, judge)
    }

    fn number(&self, from: u32, bytes: u32, judge: &mut Judge) -> u64 {
        let bytes = (from..from + bytes).rev();
        bytes.fold(0, |number, at| {
            number << 8 | u64::from(self.read(at, judge))
        })
    }

    /// Done and aborted are cleared, as a controller does before it waits for the next interrupt; any mask.
    fn clear(&mut self, random: &mut Random, judge: &mut Judge) {
        self.write(FLAGS as u32, DONE | ABORTED | random.byte(), judge);
        self.write(MASK as u32, random.byte() & random.byte(), judge);
        if self.flags(judge) & (DONE | ABORTED) != 0 {
            judge.differ("a flag that was cleared is up");
        }
    }

    fn name(&mut self, address: u32, random: &mut Random, judge: &mut Judge) {
        let mut writes = [(0, address / 8), (1, address % 8)];
        if random.one_in(2) {
            writes.reverse();
        }
        for (at, byte) in writes {
            self.write(at, byte as u8, judge);
        }
    }

    fn command(&mut self, command: u8, judge: &mut Judge) -> Result<Done, Number> {
        let told = self.write(COMMAND as u32, command, judge);
        if let refusal @ 1.. = self.read(REFUSAL, judge) {
            let number = Number::of(refusal.into());
            return Err(
                number.unwrap_or_else(|| judge.differ(&format!("register 3 shows {refusal}")))
            );
        }
        let flags = self.flags(judge);
        let answer = match command {
            _ if flags & WAITING != 0 => Answer::Waits,
            1 => Answer::Begun(self.station.latest()),
            2 => Answer::Value(self.number(VALUE, 8, judge)),
            3 => Answer::Written,
            _ => Answer::Dropped,
        };
        let done = matches!(answer, Answer::Value(_) | Answer::Written);
        self.shown(answer, &told, flags, [done, false], judge)
    }

    fn step(&mut self, message: &[u8], judge: &mut Judge) -> Result<Done, Number> {
        let before = self.flags(judge);
        let room = judge.room();
        let access = Access::Step(message.to_vec());
        let told = judge.access(&access, &mut self.kept, room, &mut self.station);
        let told = match told {
            Ok(told) => told,
            Err(number) => {
                let number = Number::of(number);
                return Err(number.unwrap_or_else(|| judge.differ("no number of a step")));
            }
        };
        let flags = self.flags(judge);
        // what a controller makes of it: done and aborted were clear
        let answer = match flags & (DONE | ABORTED) {
            0 => Answer::Nothing,
            ABORTED => match proved::answer(&told) {
                Some(answer @ Answer::Aborted(_)) => answer,
                other => judge.differ(&format!("aborted is up, told {other:?}")),
            },
            _ if flags & OPEN == 0 => Answer::Committed(self.number(COMMIT, 4, judge) as u32),
            _ if before & WAITING == 0 => judge.differ("done is up, and nobody waited"),
            _ => match proved::answer(&told) {
                Some(Answer::Value(_)) => Answer::Value(self.number(VALUE, 8, judge)),
                _ => Answer::Written,
            },
        };
        let [done, aborted] = [DONE, ABORTED].map(|flag| flags & flag != 0);
        self.shown(answer, &told, flags, [done, aborted], judge)
    }

    /// What the registers show is what was told, and the interrupt follows flags and mask.
    fn shown(
        &mut self,
        answer: Answer,
        told: &[u64; 4],
        flags: u8,
        rose: [bool; 2],
        judge: &mut Judge,
    ) -> Result<Done, Number> {
        if proved::answer(told) != Some(answer) {
            judge.differ(&format!("the registers show {answer:?}, told {told:?}"));
        }
        if [DONE, ABORTED].map(|flag| flags & flag != 0) != rose {
            judge.differ(&format!("flags {flags} behind {answer:?}"));
        }
        let up = flags & self.read(MASK as u32, judge) != 0;
        if judge.interrupt(&self.kept) != Ok(up.into()) {
            judge.differ(&format!(
                "the interrupt is not as flags {flags} and mask say"
            ));
        }
        Ok(Done {
            answer,
            sent: judge.sent(),
        })
    }

    fn purge(&mut self, page: u32, judge: &mut Judge) -> Result<Done, Number> {
        let mut results = Results::default();
        let number = proved::purge(page, &mut results.lent(&mut self.kept.state));
        let done = self.station.purge(page);
        if done.as_ref().err().map_or(OK, |number| *number as u32) != number {
            judge.differ(&format!("purge of {page}: {number}"));
        }
        done
    }

    fn write_set(
        &mut self,
        page: u32,
        set: u32,
        values: &[u64],
        judge: &mut Judge,
    ) -> Result<Done, Number> {
        let mut results = Results::default();
        let lent = &mut results.lent(&mut self.kept.state);
        let number = proved::write_set(page, set, values, lent);
        let values = values.first_chunk().expect("a value for each object");
        let done = self.station.write_set(page, set, values);
        if done.as_ref().err().map_or(OK, |number| *number as u32) != number {
            judge.differ(&format!("a write of set {set} of {page}: {number}"));
        }
        done
    }

    /// The window as this implementation has it.
    pub fn is_window(&self) -> bool {
        window::decode(&self.kept.registers, &self.kept.state).is_some()
    }
}
