//! A stretch of the calls made, as a message chart. The second implementation makes the same calls beside the compiled
//! ends, and has to answer the same; the chart is drawn from its run.

use crate::line::{Done, Fault};
use second::chart::{self, Drawn};
use second::line::call::{self, Call, Driver};
use second::line::message::Down;
use second::line::sets::STATIONS;
use second::line::world::Reply;
use second::line::{Cause, Kind};

/// Calls drawn, unless the command line says so.
pub const CALLS: usize = 30;
/// Of these before the victim's 22, where no first call is given.
const LEAD: usize = 20;

pub struct Stretch {
    /// The first call drawn, numbered from 1; found at the first victim if it is not given.
    from: Option<usize>,
    kinds: [Kind; STATIONS],
    calls: usize,
    made: Vec<Call>,
    second: Driver,
}

impl Stretch {
    pub fn new(kinds: [Kind; STATIONS], from: Option<usize>, calls: usize) -> Stretch {
        let mut second = Driver::default();
        second.answer(Some(&Call::Fresh(kinds)));
        Stretch {
            from,
            kinds,
            calls,
            made: Vec::new(),
            second,
        }
    }

    /// All calls of the stretch have been made.
    fn is_over(&self) -> bool {
        self.from
            .is_some_and(|from| self.made.len() + 1 >= from.saturating_add(self.calls))
    }

    /// Takes a call and what the compiled end made of it.
    pub fn made(&mut self, call: &Call, made: &Result<Done, Fault>) -> Result<(), String> {
        if self.is_over() {
            return Ok(());
        }
        self.made.push(call.clone());
        let number = self.made.len();
        let reply = self.second.answer(Some(call));
        if !agree(made, &reply) {
            let difference = "the second implementation answers differently";
            return Err(format!("call {number}, `{call}`: {difference}: {reply}"));
        }
        if self.from.is_none() && has_victim(made) {
            let lead = LEAD.min(self.calls.saturating_sub(1));
            self.from = Some(number.saturating_sub(lead).max(1));
        }
        Ok(())
    }

    /// The first and the last call of the chart; where there was no victim, it begins with the shift.
    pub fn drawn(&self) -> (usize, usize) {
        let from = self.from.unwrap_or(1);
        (
            from,
            self.made.len().min(from.saturating_add(self.calls - 1)),
        )
    }

    /// The chart.
    pub fn draw(&self, seed: u64) -> Result<Drawn, String> {
        let (from, last) = self.drawn();
        if from > last {
            return Err(format!("there is no call {from}: the last is {last}"));
        }
        let script = format!(
            "# The demo line, seed {seed}: calls {from} to {last}\n\
             # Stations 0 to 5 are heads, 6 is the panel, 7 the shift office. Arrows from above were sent before.\n\
             {}\n{}",
            Call::Fresh(self.kinds),
            call::script(&self.made[..last])
        );
        chart::draw_from(&script, from - 1).map_err(|fault| fault.to_string())
    }
}

fn agree(made: &Result<Done, Fault>, reply: &Reply) -> bool {
    match (made, reply) {
        (Ok(done), Reply::Accepted(outcome)) => {
            done.answer == outcome.answer
                && done.sent == outcome.sent
                && done.records == outcome.records.concat()
        }
        (Err(Fault::Refused(number)), Reply::Refused(other)) => *number == *other as u32,
        _ => false,
    }
}

/// Did the server abort a transaction of a waits-for cycle?
fn has_victim(made: &Result<Done, Fault>) -> bool {
    let sent = made.iter().flat_map(|done| &done.sent);
    sent.filter_map(|bytes| Down::decode(bytes, bytes[1]).ok())
        .any(|(_, message)| {
            matches!(
                message,
                Down::Aborted {
                    cause: Cause::Cycle,
                    ..
                }
            )
        })
}

#[cfg(test)]
mod tests {
    use super::*;
    use crate::shift::Shift;
    use crate::staff::KINDS;
    use second::line::Answer;

    fn stretch(from: Option<usize>, calls: usize) -> Stretch {
        let mut shift = Shift::new(8, 60, Vec::new());
        shift.stretch = Some(Stretch::new(KINDS, from, calls));
        while shift.turn().unwrap() {}
        shift.stretch.unwrap()
    }

    #[test]
    fn by_default_there_is_a_victim() {
        let drawn = stretch(None, CALLS).draw(8).unwrap();
        assert_eq!(drawn.clashes, 0);
        assert!(drawn.svg.contains(", cause 1<"));
        assert!(is_well_formed(&drawn.svg));
    }

    #[test]
    fn the_stretch_that_was_asked_for() {
        let stretch = stretch(Some(100), 12);
        assert_eq!(stretch.drawn(), (100, 111));
        assert_eq!(stretch.made.len(), 111);
        let drawn = stretch.draw(8).unwrap();
        assert!(drawn.svg.contains("calls 100 to 111"));
        assert!(is_well_formed(&drawn.svg));
        let whole = self::stretch(Some(1), usize::MAX);
        assert_eq!(whole.drawn(), (1, whole.made.len()));
        assert!(self::stretch(Some(usize::MAX), 1).draw(8).is_err());
    }

    #[test]
    fn another_answer_is_a_fault() {
        let begun = |transaction: u32| {
            let answer = Answer::Begun(transaction);
            let (sent, records) = (Vec::new(), Vec::new());
            Ok(Done {
                answer,
                sent,
                records,
            })
        };
        let call = Call::Begin(0);
        assert!(Stretch::new(KINDS, None, 1).made(&call, &begun(1)).is_ok());
        assert!(Stretch::new(KINDS, None, 1).made(&call, &begun(2)).is_err());
        assert!(Stretch::new(KINDS, None, 1)
            .made(&call, &Err(Fault::Refused(9)))
            .is_err());
    }

    /// Elements are closed in their order, and nothing else looks like one.
    fn is_well_formed(svg: &str) -> bool {
        let mut open = Vec::new();
        let mut pieces = svg.split('<');
        let starts = pieces.next() == Some("");
        let fits = pieces.all(|piece| {
            let Some((tag, text)) = piece.split_once('>') else {
                return false;
            };
            let name = tag.split(' ').next().unwrap_or_default();
            match name.strip_prefix('/') {
                Some(name) if open.pop() != Some(name) => return false,
                None if !tag.ends_with('/') => open.push(name),
                _ => (),
            }
            !text.contains('>') && tag.matches('"').count() % 2 == 0
        });
        starts && fits && open.is_empty() && svg.starts_with("<svg ") && svg.ends_with("</svg>\n")
    }

    #[test]
    fn what_is_well_formed() {
        assert!(is_well_formed("<svg a=\"1\"><g><p/>x</g></svg>\n"));
        for wrong in [
            "<svg ><g></svg>\n",
            "<svg ><g></svg></g>\n",
            "<svg a=\">x</svg>\n",
            "<svg >a > b</svg>\n",
        ] {
            assert!(!is_well_formed(wrong), "{wrong}");
        }
    }
}
