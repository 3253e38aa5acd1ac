//! What was reached, and how often.

use crate::cases::{Case, Way};
use second::line::places::{header::Field, Place};
use second::people::{Asked, Cause, Fault, Listing, Play, Stop};
use second::record::{Header, HEADER, LONGEST};
use second::tally::Tally;
use std::collections::BTreeMap;
use std::fmt::{self, Display, Formatter};

/// The rows of the table in docs/PLAYBACK.md; two of them in halves.
const ROWS: [&str; 14] = [
    "12 in a header",
    "12 in a record",
    "12 in what is no record",
    "5 reads",
    "5 writes",
    "5 transaction",
    "5 station",
    "5 kind",
    "5 byte 14",
    "5 byte 15",
    "5 order of reads",
    "5 order of writes",
    "13",
    "14",
];
/// What closes a play that is not refused.
const CLOSINGS: [(&str, &str); 12] = [
    ("commits", "end"),
    ("commits", "at"),
    ("totals", "end"),
    ("at", "end"),
    ("at", "at"),
    ("counter", "end"),
    ("counter", "at"),
    ("record", "end"),
    ("record", "at"),
    ("csv", "end"),
    ("csv", "at"),
    ("csv", "refused"),
];
const OTHERS: [(&str, &str); 15] = [
    ("ways", "pipe"),
    ("ways", "file"),
    ("ways", "named file"),
    ("ways", "held pipe"),
    ("help", "pipe"),
    ("help", "file"),
    ("help", "held pipe"),
    ("unclear", "pipe"),
    ("unclear", "file"),
    ("unclear", "held pipe"),
    ("archives", "empty"),
    ("archives", "over 2 MB"),
    ("archives", "over 2 MB, refused"),
    ("archives", "several faults in a record"),
    ("archives", "65,535 reads or writes claimed"),
];
/// Records of 256 reads and writes, whole or not.
const FULL: (&str, &str) = ("archives", "a record of 4,624 bytes");

/// Counts by group.
#[derive(Default)]
pub struct Tallies(BTreeMap<&'static str, Tally<&'static str>>);

impl Tallies {
    pub fn count(&mut self, case: &Case, way: Way, asked: Option<&Asked>, play: &Play) {
        let way = match way {
            Way::Pieces(_) => "pipe",
            Way::File => "file",
            Way::Named => "named file",
            Way::Held => "held pipe",
        };
        let Some(asked) = asked else {
            return self.add("unclear", way);
        };
        let mode = match asked.listing {
            Listing::Commits => "commits",
            Listing::Totals => "totals",
            Listing::At(_) => "at",
            Listing::Counter(_) => "counter",
            Listing::Record(_) => "record",
            Listing::Help | Listing::Version => return self.add("help", way),
        };
        self.add("ways", way);
        let closing = match &play.stop {
            Stop::End => "end",
            Stop::Reached => "at",
            Stop::Fault(fault) => row(fault, &case.archive),
        };
        self.add(mode, closing);
        if asked.csv {
            let closing = match &play.stop {
                Stop::Fault(_) => "refused",
                _ => closing,
            };
            self.add("csv", closing);
        }
        self.count_archive(case, play);
    }

    fn count_archive(&mut self, case: &Case, play: &Play) {
        let refused = matches!(play.stop, Stop::Fault(_));
        let long = play.end > 2_000_000;
        let next = Header::first(&case.archive[play.end..]);
        let claims = |most: u32| next.is_some_and(|next| next.reads.max(next.writes) == most);
        let full = claims(256) && next.is_some_and(|next| next.length() == LONGEST as u64);
        let marks = [
            (case.archive.is_empty(), "empty"),
            (long, "over 2 MB"),
            (long && refused, "over 2 MB, refused"),
            (refused && case.wounds > 1, "several faults in a record"),
            (refused && claims(65_535), "65,535 reads or writes claimed"),
            (full, FULL.1),
        ];
        for (_, mark) in marks.into_iter().filter(|(is, _)| *is) {
            self.add("archives", mark);
        }
    }

    fn add(&mut self, group: &'static str, what: &'static str) {
        self.0.entry(group).or_default().count(what);
    }

    /// The first thing that was not reached.
    pub fn missing(&self) -> Option<String> {
        let modes = ["commits", "totals", "at", "counter", "record"];
        let rows = modes.iter().flat_map(|mode| ROWS.map(|row| (*mode, row)));
        let mut all = rows.chain(CLOSINGS).chain(OTHERS).chain([FULL]);
        let missing = all.find(|(group, what)| match self.0.get(group) {
            Some(tally) => !tally.has(what),
            None => true,
        });
        missing.map(|(group, what)| format!("{group}: {what}"))
    }
}

fn row(fault: &Fault, archive: &[u8]) -> &'static str {
    let place = fault.at - fault.record;
    let header = Header::first(&archive[fault.record..]);
    let row = match fault.cause {
        Cause::Short(..) if header.is_none() => 0,
        Cause::Short(..) => 1,
        Cause::Sizes(..) => 2,
        Cause::Many(..) if place == Field::Reads.start() => 3,
        Cause::Many(..) => 4,
        Cause::Transaction => 5,
        Cause::Station(_) => 6,
        Cause::Kind(_) => 7,
        Cause::NotZero(_) if place == Field::Spare.start() => 8,
        Cause::NotZero(_) => 9,
        Cause::Order(..) if header.is_some_and(|h| place < HEADER + h.reads as usize) => 10,
        Cause::Order(..) => 11,
        Cause::Sequence(..) => 12,
        Cause::Read(..) => 13,
    };
    ROWS[row]
}

impl Display for Tallies {
    fn fmt(&self, f: &mut Formatter<'_>) -> fmt::Result {
        let lines = self
            .0
            .iter()
            .map(|(group, tally)| format!("{group}: {tally}"));
        f.write_str(&lines.collect::<Vec<_>>().join("\n"))
    }
}
