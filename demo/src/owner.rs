//! An owner at its station: a piece of work, step by step, begun again when its transaction is aborted.

use crate::counters::Counts;
use second::line::call::Call;
use second::line::sets::{address, rising, ObjectSet, OBJECTS};
use second::line::Answer;

#[derive(Clone, Copy, Debug, PartialEq, Eq)]
pub enum Step {
    Begin,
    Read(u8),
    /// Write what was read of this counter, and so much more.
    Add(u8, u64),
    /// The same of counters of a page, all at once: page, set, and how much more each.
    AddSet(u8, ObjectSet, [u64; OBJECTS]),
    /// Write what was read of the first counter into the second.
    Copy(u8, u8),
    Commit,
    Abort,
    Purge(u8),
}

pub struct Owner {
    station: u8,
    steps: Vec<Step>,
    /// The step that is next, or out.
    at: usize,
    waits: bool,
    /// What the open transaction has read.
    read: Counts,
}

/// What an answer comes to.
#[derive(Clone, Copy, Debug, PartialEq, Eq)]
pub enum Came {
    Further,
    Committed(u32),
    /// By its cause, 0 for the owner's own wish.
    Aborted(u8),
}

impl Owner {
    pub fn new(station: u8) -> Owner {
        Owner {
            station,
            steps: Vec::new(),
            at: 0,
            waits: false,
            read: Counts::new(),
        }
    }

    /// It has done all of its work.
    pub fn is_idle(&self) -> bool {
        self.at == self.steps.len()
    }

    pub fn waits(&self) -> bool {
        self.waits
    }

    /// What its transaction read.
    pub fn read(&self) -> &Counts {
        &self.read
    }

    pub fn start(&mut self, steps: Vec<Step>) {
        self.steps = steps;
        self.at = 0;
    }

    /// The call of the next step.
    pub fn call(&self) -> Call {
        let station = self.station;
        let read = |address: u8| self.read[&address];
        match self.steps[self.at] {
            Step::Begin => Call::Begin(station),
            Step::Read(address) => Call::Read(station, address),
            Step::Add(address, more) => Call::Write(station, address, read(address) + more),
            Step::AddSet(page, set, more) => {
                let mut values = more;
                for object in rising(set) {
                    values[object as usize] += read(address(page, object));
                }
                Call::WriteSet(station, page.into(), set, values)
            }
            Step::Copy(from, to) => Call::Write(station, to, read(from)),
            Step::Commit => Call::Commit(station),
            Step::Abort => Call::Abort(station),
            Step::Purge(page) => Call::Purge(station, page.into()),
        }
    }

    /// A purge may be refused where the page has gone already, or is kept; nothing else may.
    pub fn may_be_refused(&self, number: u32) -> bool {
        const KEPT: u32 = 10;
        matches!(self.steps[self.at], Step::Purge(_)) && number == KEPT
    }

    /// Leaves out the step that was refused.
    pub fn refused(&mut self) {
        self.at += 1;
    }

    /// Takes an answer, of its own call or of a delivery.
    pub fn told(&mut self, answer: Answer) -> Came {
        match answer {
            Answer::Nothing => return Came::Further,
            Answer::Waits => {
                self.waits = true;
                return Came::Further;
            }
            Answer::Aborted(cause) => {
                self.waits = false;
                self.at = 0;
                return Came::Aborted(cause as u8);
            }
            Answer::Begun(_) => self.read.clear(),
            Answer::Value(value) => self.has_read(value),
            _ => (),
        }
        self.waits = false;
        self.at += 1;
        match answer {
            Answer::Committed(commit) => Came::Committed(commit),
            Answer::Dropped => Came::Aborted(0),
            _ => Came::Further,
        }
    }

    fn has_read(&mut self, value: u64) {
        if let Step::Read(address) = self.steps[self.at] {
            self.read.insert(address, value);
        }
    }
}

#[cfg(test)]
mod tests {
    use super::*;
    use second::line::Cause;

    #[test]
    fn an_aborted_transaction_is_begun_again() {
        let mut owner = Owner::new(3);
        owner.start(vec![
            Step::Begin,
            Step::Read(8),
            Step::Add(8, 2),
            Step::Commit,
        ]);
        let add = |owner: &mut Owner, value: u64| {
            assert_eq!(owner.call(), Call::Begin(3));
            assert_eq!(owner.told(Answer::Begun(1)), Came::Further);
            assert_eq!(owner.call(), Call::Read(3, 8));
            assert_eq!(owner.told(Answer::Waits), Came::Further);
            assert!(owner.waits());
            assert_eq!(owner.told(Answer::Value(value)), Came::Further);
            assert_eq!(owner.call(), Call::Write(3, 8, value + 2));
        };
        add(&mut owner, 5);
        let came = owner.told(Answer::Aborted(Cause::Version));
        assert_eq!(came, Came::Aborted(2));
        add(&mut owner, 6);
        assert_eq!(owner.told(Answer::Written), Came::Further);
        assert_eq!(owner.call(), Call::Commit(3));
        assert_eq!(owner.told(Answer::Waits), Came::Further);
        assert_eq!(owner.told(Answer::Nothing), Came::Further);
        assert!(owner.waits() && !owner.is_idle());
        assert_eq!(owner.told(Answer::Committed(9)), Came::Committed(9));
        assert!(owner.is_idle() && !owner.waits());
    }
}
