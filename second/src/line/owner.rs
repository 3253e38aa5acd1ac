//! What a station's owner asked for and was told: the only witness of demand 3.

use super::call::Call;
use super::sets::Writing;
use super::Answer;

/// What an owner asks its station.
#[derive(Clone, Copy, Debug, PartialEq, Eq)]
pub enum Asked {
    Begin,
    Read(u8),
    Write(Writing),
    Commit,
    Abort,
    Purge,
}

impl Asked {
    /// None for a call that is no owner's.
    pub fn of(call: &Call) -> Option<Asked> {
        Some(match call {
            Call::Begin(_) => Asked::Begin,
            Call::Read(_, address) => Asked::Read(*address),
            Call::Write(_, address, value) => Asked::Write(Writing::one(*address, *value)),
            // one that is accepted is a set of objects
            Call::WriteSet(_, page, set, values) => {
                Asked::Write(Writing::of(*page, (*set).into(), values)?)
            }
            Call::Commit(_) => Asked::Commit,
            Call::Abort(_) => Asked::Abort,
            Call::Purge(..) => Asked::Purge,
            _ => return None,
        })
    }
}

/// What an owner knows to have happened.
#[derive(Clone, Copy, Debug, PartialEq, Eq)]
pub enum Told {
    Begun(u32),
    Read(u8, u64),
    Wrote(u8, u64),
    Committed(u32),
    Aborted,
    /// An answer that does not fit what was asked.
    Odd(Answer),
}

#[derive(Clone, Debug, Default, PartialEq, Eq)]
pub struct Owner {
    /// What it got "waits" for.
    pending: Option<Asked>,
    told: Vec<Told>,
}

impl Owner {
    /// An accepted call at its station: what it asked, unless that was a delivery.
    pub fn told_by(&mut self, asked: Option<Asked>, answer: Answer) {
        match asked {
            Some(asked) => self.called(asked, answer),
            None => self.delivered(answer),
        }
    }

    /// "Owners are told a call's answer"
    fn called(&mut self, asked: Asked, answer: Answer) {
        if answer == Answer::Waits {
            self.pending = Some(asked);
        } else {
            self.hears(Some(asked), answer);
        }
    }

    /// ", after "waits" the delivery's."
    fn delivered(&mut self, answer: Answer) {
        if answer != Answer::Nothing {
            let asked = self.pending.take();
            self.hears(asked, answer);
        }
    }

    fn hears(&mut self, asked: Option<Asked>, answer: Answer) {
        let told = match (asked, answer) {
            (Some(Asked::Begin), Answer::Begun(transaction)) => Told::Begun(transaction),
            (Some(Asked::Read(address)), Answer::Value(value)) => Told::Read(address, value),
            // "the serial reading of the archive must cover sets": one told of each object
            (Some(Asked::Write(writing)), Answer::Written) => {
                let wrote = writing.entries().map(|(a, value)| Told::Wrote(a, value));
                return self.told.extend(wrote);
            }
            (Some(Asked::Commit), Answer::Committed(commit)) => Told::Committed(commit),
            (Some(Asked::Abort), Answer::Dropped) | (_, Answer::Aborted(_)) => Told::Aborted,
            (Some(Asked::Purge), Answer::Purged) => return,
            _ => Told::Odd(answer),
        };
        self.told.push(told);
    }

    pub fn told(&self) -> &[Told] {
        &self.told
    }
}
