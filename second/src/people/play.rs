//! A play of an archive: what it lists, how far it went, and what each counter then is.

use super::asked::{Asked, Listing};
use super::fault::Fault;
use super::{ACCEPTED, REFUSED, UNCLEAR};
use crate::archive::{Playback, ADDRESSES};
use crate::program::Said;
use crate::record::View;
use crate::text;

/// Why a play went no further.
#[derive(Clone, Debug, PartialEq, Eq)]
pub enum Stop {
    /// The archive is at its end.
    End,
    /// The commit asked for was reached.
    Reached,
    Fault(Fault),
}

/// What was played.
pub struct Play {
    pub playback: Playback,
    /// Records that wrote each counter.
    pub writes: [u64; ADDRESSES],
    /// Where the last record played ends.
    pub end: usize,
    pub stop: Stop,
    /// Heading and lines so far.
    rows: Rows,
}

/// Lines of columns.
struct Rows {
    text: Vec<u8>,
    between: u8,
}

impl Rows {
    fn words(&mut self, words: &[&str]) {
        self.text.extend(words.join(&self.between()).bytes());
        self.text.push(b'\n');
    }

    fn numbers(&mut self, numbers: &[u64]) {
        for (i, number) in numbers.iter().enumerate() {
            let end = match i + 1 == numbers.len() {
                true => b'\n',
                false => self.between,
            };
            text::push_number(&mut self.text, *number, end);
        }
    }

    fn between(&self) -> String {
        char::from(self.between).to_string()
    }
}

impl Play {
    /// All of it.
    pub fn whole(archive: &[u8]) -> Play {
        Play::of(archive, &Asked::COMMITS)
    }

    /// Plays to the last commit that is asked for, else as far as it goes.
    pub fn of(archive: &[u8], asked: &Asked) -> Play {
        let mut play = Play {
            playback: Playback::FRESH,
            writes: [0; ADDRESSES],
            end: 0,
            stop: Stop::Reached,
            rows: Rows {
                text: Vec::new(),
                between: if asked.csv { b',' } else { b' ' },
            },
        };
        match asked.listing {
            Listing::Commits => play.rows.words(&text::COLUMNS),
            Listing::Counter(_) => play.rows.words(&["commit", "station", "before", "after"]),
            _ => {}
        }
        while Some(play.playback.last) != asked.to {
            if let Err(stop) = play.record(archive, asked) {
                play.stop = stop;
                break;
            }
        }
        play
    }

    /// Plays one record more.
    fn record(&mut self, archive: &[u8], asked: &Asked) -> Result<(), Stop> {
        let rest = &archive[self.end..];
        if rest.is_empty() {
            return Err(Stop::End);
        }
        let counter = match asked.listing {
            Listing::Counter(counter) => usize::from(counter),
            _ => 0,
        };
        let before = self.playback.values[counter];
        let Ok(view) = self.playback.record(rest) else {
            let fault = Fault::of(archive, self.end, &self.playback);
            return Err(Stop::Fault(fault.expect("it is refused")));
        };
        for (address, _) in view.writes() {
            self.writes[usize::from(address)] += 1;
        }
        if view.header.commit >= asked.from {
            let after = self.playback.values[counter];
            self.list(&view, asked.listing, before, after);
        }
        self.end += view.length();
        Ok(())
    }

    /// What a listing has of a record.
    fn list(&mut self, view: &View, listing: Listing, before: u64, after: u64) {
        let header = &view.header;
        let [commit, station] = [header.commit, header.station].map(u64::from);
        let [kind, transaction] = [header.kind, header.transaction].map(u64::from);
        let [reads, writes] = [header.reads, header.writes].map(u64::from);
        let rows = &mut self.rows;
        match listing {
            Listing::Commits => rows.numbers(&[commit, station, transaction, reads, writes]),
            Listing::Counter(counter) => {
                if view.writes().any(|(address, _)| address == counter) {
                    rows.numbers(&[commit, station, before, after]);
                }
            }
            Listing::Record(_) => {
                rows.words(&[
                    "commit",
                    "station",
                    "kind",
                    "transaction",
                    "reads",
                    "writes",
                    "byte",
                    "length",
                ]);
                let [byte, length] = [self.end as u64, view.length() as u64];
                rows.numbers(&[
                    commit,
                    station,
                    kind,
                    transaction,
                    reads,
                    writes,
                    byte,
                    length,
                ]);
                rows.words(&["entry", "counter", "page", "object", "value"]);
                let reads = view.reads().map(|entry| ("read", entry));
                let writes = view.writes().map(|entry| ("write", entry));
                for (what, (address, value)) in reads.chain(writes) {
                    rows.text.extend(what.bytes());
                    rows.text.push(rows.between);
                    let address = u64::from(address);
                    rows.numbers(&[address, address / 8, address % 8, value]);
                }
            }
            _ => {}
        }
    }

    /// Heading and a line for each counter.
    fn table(&mut self) {
        self.rows
            .words(&["counter", "page", "object", "value", "writes"]);
        for address in 0..ADDRESSES {
            let (value, writes) = (self.playback.values[address], self.writes[address]);
            let [address, page, object] = [address, address / 8, address % 8].map(|n| n as u64);
            self.rows.numbers(&[address, page, object, value, writes]);
        }
    }

    /// The closing line.
    fn closing(&self) -> String {
        let last = self.playback.last;
        match &self.stop {
            Stop::End => text::ending(Ok(()), last),
            Stop::Reached => format!("at {last}: what follows was not looked at\n"),
            Stop::Fault(fault) => text::ending(Err(fault.cause.refusal()), last),
        }
    }

    /// The commit that was asked for and does not come.
    fn missing(&self, asked: &Asked) -> Option<u32> {
        match (asked.listing, &self.stop) {
            (Listing::At(commit) | Listing::Record(commit), Stop::End) => Some(commit),
            _ => None,
        }
    }

    /// What is printed, and the exit status. How `--help` and `--version` put it is left open.
    pub fn said(mut self, asked: &Asked) -> Option<Said> {
        let table = match asked.listing {
            Listing::Help | Listing::Version => return None,
            Listing::Totals => true,
            Listing::At(_) => self.stop == Stop::Reached,
            _ => false,
        };
        if table {
            self.table();
        }
        let closing = self.closing();
        let mut errors = String::new();
        match asked.csv {
            true => errors = format!("playback: {closing}"),
            false => self.rows.text.extend(closing.bytes()),
        }
        let last = self.playback.last;
        let mut status = ACCEPTED;
        if let Stop::Fault(fault) = &self.stop {
            errors += &format!("playback: {fault}\n");
            status = REFUSED;
        }
        if let Some(commit) = self.missing(asked) {
            errors += &format!(
                "playback: there is no commit {commit}: the archive ends behind commit {last}\n"
            );
            status = UNCLEAR;
        }
        Some(Said {
            output: self.rows.text,
            errors: errors.into_bytes(),
            status,
        })
    }
}
