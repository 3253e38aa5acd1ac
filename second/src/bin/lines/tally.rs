//! What was called, sent, refused and damaged, and how often.

use crate::judge::{to_each, SORTS};
use second::line::counts::Counts;
use second::line::lent::BUFFER;
use second::line::message::{Field, LENGTH as MESSAGE};
use second::line::places::Place;
use second::line::served::RECORDS;
use second::numbers::OK;
use second::tally::Tally;
use std::fmt::{self, Display, Formatter};

#[derive(Default)]
pub struct Tallies {
    /// The lines, each counted once: what their calls took, sent and refused.
    pub counts: Counts,
    /// Runs of this implementation alone that say what the long lines do.
    pub long: Counts,
    /// Calls of the library on lines.
    pub on_lines: u64,
    /// Archives played back by the program.
    pub played: u64,
    damaged: u64,
    /// Damaged steps by the kind of the message accepted, and by number.
    accepted: Tally<u8>,
    refused: Tally<u32>,
    sent: Tally<u8>,
    causes: Tally<u8>,
    most_messages: usize,
    /// .. to one station
    most_to_one: usize,
    most_records: usize,
    pub fresh: Tally<u32>,
    pub states: Tally<&'static str>,
    pub messages: Tally<&'static str>,
    pub rooms: Tally<&'static str>,
    pub sorts: Tally<&'static str>,
}

impl Tallies {
    pub fn calls(&self) -> u64 {
        self.on_lines + self.damaged
    }

    /// A damaged step, its number, and what it sent.
    pub fn stepped(&mut self, message: &[u8], number: u32, sent: Option<(&[u8], &[u8])>) {
        self.damaged += 1;
        if number != OK {
            return self.refused.count(number);
        }
        self.accepted.count(message.first().copied().unwrap_or(0));
        let (messages, records) = sent.unwrap_or_default();
        for message in messages.chunks(MESSAGE) {
            let kind = Field::Kind.byte(message);
            self.sent.count(kind);
            if kind == 22 {
                self.causes.count(Field::ObjectOrCause.byte(message));
            }
        }
        self.most_messages = self.most_messages.max(messages.len() / MESSAGE);
        let to_one = to_each(messages).into_iter().max().unwrap_or(0);
        self.most_to_one = self.most_to_one.max(to_one);
        self.most_records = self.most_records.max(records.len());
    }

    /// The first thing that was not reached, of all that many calls must reach.
    pub fn missing(&self) -> Option<String> {
        let line = [
            (self.counts.ended_by_23 > 0, "an end by 23"),
            (self.counts.ignored_16 > 0, "an ignored 16"),
            (self.counts.steps_with_victims > 0, "two victims in a step"),
            (self.counts.longest_list == 8, "a full waiting list"),
            (self.long.claimed > 0, "a long line"),
            (self.most_records == RECORDS, "7,040 bytes of records"),
            (self.most_messages >= 74, "74 messages in a step"),
            (self.most_to_one >= 39, "39 messages to one station"),
        ]
        .map(|(reached, what)| (reached, what.to_string()));
        let accepted = (1..=8).map(|kind| (self.accepted.has(&kind), format!("damaged {kind}")));
        let refused = (BUFFER..=6).map(|n| (self.refused.has(&n), format!("damaged number {n}")));
        let sent = (16..=23).map(|kind| (self.sent.has(&kind), format!("damaged {kind} sent")));
        let causes =
            (1..=4).map(|cause| (self.causes.has(&cause), format!("damaged cause {cause}")));
        let fresh = [OK, BUFFER, 4].map(|n| (self.fresh.has(&n), format!("fresh {n}")));
        let sorts = SORTS.map(|sort| (self.sorts.has(&sort), format!("states: {sort}")));
        let all = line.into_iter().chain(accepted).chain(refused).chain(sent);
        let mut all = all.chain(causes).chain(fresh).chain(sorts);
        let missing = all.find(|(reached, _)| !reached).map(|(_, what)| what);
        self.counts.missing().or(missing)
    }
}

impl Display for Tallies {
    fn fmt(&self, f: &mut Formatter<'_>) -> fmt::Result {
        writeln!(f, "LINES, each call on three pairs of ends")?;
        writeln!(f, "{}", self.counts)?;
        writeln!(
            f,
            "run for long: {} lines, {} calls, {} commits; archives played back by the program: {}",
            self.long.runs, self.long.calls, self.long.records, self.played
        )?;
        writeln!(f, "DAMAGED CASES of the server: {}", self.damaged)?;
        writeln!(f, "accepted by kind: {}", self.accepted)?;
        writeln!(f, "refused by number: {}", self.refused)?;
        writeln!(
            f,
            "sent by kind: {}; 22 by cause: {}",
            self.sent, self.causes
        )?;
        writeln!(f, "by state: {}", self.states)?;
        writeln!(f, "their states: {}", self.sorts)?;
        writeln!(f, "by message: {}", self.messages)?;
        writeln!(f, "by room: {}", self.rooms)?;
        writeln!(f, "fresh states by number: {}", self.fresh)?;
        write!(
            f,
            "most in one step: {} messages, {} to one station, {} bytes of records",
            self.most_messages, self.most_to_one, self.most_records
        )
    }
}
