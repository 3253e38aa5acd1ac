//! What was called, told, refused and damaged, and how often.

use crate::judge::SORTS;
use second::line::lent::{Operation, BUFFER};
use second::numbers::OK;
use second::tally::Tally;
use std::fmt::{self, Display, Formatter};

#[derive(Default)]
pub struct Tallies {
    pub calls: u64,
    pub lines: u64,
    operations: Tally<&'static str>,
    owners_refused: Tally<u32>,
    steps_refused: Tally<u32>,
    checks_refused: Tally<u32>,
    told: Tally<&'static str>,
    /// Accepted steps by the kind of their message.
    delivered: Tally<u8>,
    most_messages: u64,
    longest_commit: u64,
    pub states: Tally<&'static str>,
    pub arguments: Tally<&'static str>,
    pub rooms: Tally<&'static str>,
    pub decoding: Tally<&'static str>,
}

/// What an owner is told, by the C interface's number.
const TOLD: [&str; 9] = [
    "?",
    "begun",
    "value",
    "waits",
    "written",
    "committed",
    "aborted",
    "purged",
    "nothing",
];

impl Tallies {
    /// A call at a station and its number.
    pub fn called(&mut self, operation: &Operation, number: u32) {
        self.calls += 1;
        self.operations.count(name(operation));
        match (operation, number) {
            (Operation::Step(message), OK) => {
                self.delivered.count(message.first().copied().unwrap_or(0))
            }
            (_, OK) => (),
            (Operation::Step(_), _) => self.steps_refused.count(number),
            _ => self.owners_refused.count(number),
        }
    }

    /// What an accepted call told.
    pub fn told(&mut self, told: &[u64]) {
        if let [answer, _, messages, commit, ..] = *told {
            let name = usize::try_from(answer).ok().and_then(|i| TOLD.get(i));
            self.told.count(name.unwrap_or(&TOLD[0]));
            self.most_messages = self.most_messages.max(messages);
            self.longest_commit = self.longest_commit.max(commit);
        }
    }

    /// A call that lends no station's state, and its number.
    pub fn checked(&mut self, name: &'static str, number: u32) {
        self.calls += 1;
        self.operations.count(name);
        if number != OK {
            self.checks_refused.count(number);
        }
    }

    /// The first thing that was not reached, of all that many calls must reach.
    pub fn missing(&self) -> Option<String> {
        let owners = [BUFFER, 4, 7, 8, 9, 10, 11, 15];
        let owners = owners.map(|n| (self.owners_refused.has(&n), format!("owners' {n}")));
        let steps = [BUFFER, 2, 3, 4, 6];
        let steps = steps.map(|n| (self.steps_refused.has(&n), format!("steps' {n}")));
        let checks = [BUFFER, 2, 3, 4, 5];
        let checks = checks.map(|n| (self.checks_refused.has(&n), format!("checks' {n}")));
        let kinds = (16..=23).map(|kind| (self.delivered.has(&kind), format!("kind {kind}")));
        let told = TOLD[1..]
            .iter()
            .map(|told| (self.told.has(told), told.to_string()));
        let states = SORTS.map(|sort| (self.decoding.has(&sort), format!("states: {sort}")));
        let most = [
            (self.most_messages == 8, String::from("8 messages")),
            (self.longest_commit == 1_408, String::from("1,408 bytes")),
        ];
        let all = owners.into_iter().chain(steps).chain(checks);
        let mut all = all.chain(kinds).chain(told).chain(states).chain(most);
        all.find(|(reached, _)| !reached).map(|(_, what)| what)
    }
}

pub fn name(operation: &Operation) -> &'static str {
    match operation {
        Operation::Begin => "begin",
        Operation::Read(_) => "read",
        Operation::Write(..) => "write",
        Operation::WriteSet(..) => "write set",
        Operation::Commit => "commit",
        Operation::Abort => "abort",
        Operation::Purge(_) => "purge",
        Operation::Step(_) => "step",
    }
}

impl Display for Tallies {
    fn fmt(&self, f: &mut Formatter<'_>) -> fmt::Result {
        writeln!(f, "calls: {}", self.operations)?;
        writeln!(f, "told: {}", self.told)?;
        writeln!(f, "delivered by kind: {}", self.delivered)?;
        writeln!(f, "owners refused by number: {}", self.owners_refused)?;
        writeln!(f, "steps refused by number: {}", self.steps_refused)?;
        writeln!(f, "checks refused by number: {}", self.checks_refused)?;
        writeln!(f, "damaged cases by state: {}", self.states)?;
        writeln!(f, "by argument: {}", self.arguments)?;
        writeln!(f, "by room: {}", self.rooms)?;
        writeln!(f, "their states: {}", self.decoding)?;
        write!(
            f,
            "most messages of a call {}, longest commit {} bytes",
            self.most_messages, self.longest_commit
        )
    }
}
