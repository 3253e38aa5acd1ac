//! Who works at the stations: six camera heads, the panel, the shift office.

use crate::belt::{Belt, Frame};
use crate::counters::{
    self, Counts, CLOSED_FRAMES, CLOSED_REJECTED, FRAMES, HEADS, HOURS, REJECTED,
};
use crate::owner::Step;
use second::line::sets::{object_bit, object_of, page_of, OBJECTS, PAGES, STATIONS};
use second::line::Kind;
use second::random::Random;

pub const PANEL: usize = HEADS;
pub const OFFICE: usize = PANEL + 1;

/// Each lane has a head of each kind, so that both kinds meet at its counters. The panel is locking: what it has read
/// stays until it has read all, and only as a deadlock's victim it begins again. The office is validating: it reads for
/// long, holds up no head before its commit, and begins again where a head was faster.
pub const KINDS: [Kind; STATIONS] = {
    use Kind::{Locking as L, Validating as V};
    [L, L, L, V, V, V, L, V]
};

/// Eight digits, by station.
pub fn kinds_of(text: &str) -> Option<[Kind; STATIONS]> {
    let kind = |digit: char| Kind::of(digit.to_digit(10)?);
    let kinds: Option<Vec<Kind>> = text.chars().map(kind).collect();
    kinds?.try_into().ok()
}

/// A kind's name.
pub fn kind_name(kind: Kind) -> &'static str {
    match kind {
        Kind::Locking => "locking",
        Kind::Validating => "validating",
        Kind::Keeping => "keeping",
    }
}

/// Hours of a shift.
const HOURS_OF_SHIFT: u64 = 8;
/// Frames between two looks of the panel, and of the office, at most.
const LOOK: usize = 60;

#[derive(Default)]
pub struct Staff {
    /// These heads write what they count on a page at once.
    pub sets: [bool; HEADS],
    heads: [Head; HEADS],
    pub panel: Panel,
    office: Office,
}

#[derive(Default)]
struct Head {
    /// Seen, and in no transaction yet.
    seen: Counts,
    /// In the transaction that is tried.
    batch: Counts,
    /// Of commits that it was told.
    counted: Counts,
}

/// Shows the shift's totals.
#[derive(Default)]
pub struct Panel {
    next: u64,
    pub looks: u64,
    pub shown: Counts,
}

/// Closes each hour that is over; looks in between, and leaves it.
#[derive(Default)]
struct Office {
    next: u64,
    /// Its own counters, of commits that it was told.
    closed: Counts,
}

impl Staff {
    pub fn sees(&mut self, frame: &Frame) {
        frame.count(&mut self.heads[frame.head].seen);
    }

    /// Has the owner at this station something to begin?
    pub fn wants(&self, station: usize, belt: &Belt) -> bool {
        match station {
            PANEL => belt.passed() >= self.panel.next && !belt.is_over(),
            OFFICE => {
                belt.passed() >= self.office.next && !belt.is_over() || self.office.is_due(belt)
            }
            head => !self.heads[head].seen.is_empty(),
        }
    }

    /// Its next piece of work.
    pub fn work(&mut self, station: usize, belt: &Belt, random: &mut Random) -> Vec<Step> {
        match station {
            PANEL => self.panel.work(belt, random),
            OFFICE => self.office.work(belt, random),
            head => self.heads[head].work(self.sets[head]),
        }
    }

    /// Its transaction, which read this, was committed. False if what it read does not add up.
    pub fn committed(&mut self, station: usize, read: &Counts) -> bool {
        match station {
            PANEL => self.panel.committed(read),
            OFFICE => self.office.committed(read),
            head => {
                self.heads[head].committed();
                true
            }
        }
    }

    /// What the owners were told that they have counted.
    pub fn counted(&self, address: u8) -> u64 {
        let counts = self.heads.iter().map(|head| &head.counted);
        let all = counts.chain([&self.office.closed]);
        all.filter_map(|counts| counts.get(&address)).sum()
    }

    /// Every frame seen is counted, and every hour is closed.
    pub fn is_done(&self, belt: &Belt) -> bool {
        let left = |head: &Head| !head.seen.is_empty() || !head.batch.is_empty();
        !self.heads.iter().any(left) && !self.office.is_due(belt)
    }
}

/// What the owner at a station is.
pub fn name(station: usize) -> String {
    match station {
        PANEL => String::from("panel"),
        OFFICE => String::from("shift office"),
        head => format!("head, lane {}", ["A", "B", "C"][counters::lane_of(head)]),
    }
}

impl Head {
    /// Adds all that was seen to its counters, one by one or as sets.
    fn work(&mut self, sets: bool) -> Vec<Step> {
        self.batch = std::mem::take(&mut self.seen);
        let adding =
            |(address, more): (&u8, &u64)| [Step::Read(*address), Step::Add(*address, *more)];
        let mut steps = vec![Step::Begin];
        match sets {
            true => steps.extend((0..PAGES as u8).flat_map(|page| self.adding_on(page))),
            false => steps.extend(self.batch.iter().flat_map(adding)),
        }
        steps.push(Step::Commit);
        steps
    }

    /// Reads its counters of a page, then adds to all of them at once.
    fn adding_on(&self, page: u8) -> Vec<Step> {
        let on_page = |(address, _): &(&u8, &u64)| page_of(**address) == page;
        let mut steps = Vec::new();
        let (mut set, mut more) = (0, [0; OBJECTS]);
        for (address, frames) in self.batch.iter().filter(on_page) {
            steps.push(Step::Read(*address));
            set |= object_bit(*address);
            more[object_of(*address) as usize] = *frames;
        }
        if set != 0 {
            steps.push(Step::AddSet(page, set, more));
        }
        steps
    }

    fn committed(&mut self) {
        for (address, more) in std::mem::take(&mut self.batch) {
            *self.counted.entry(address).or_default() += more;
        }
    }
}

impl Panel {
    pub fn work(&mut self, belt: &Belt, random: &mut Random) -> Vec<Step> {
        self.next = later(belt, random);
        let mut steps = looking();
        steps.push(Step::Commit);
        steps
    }

    fn committed(&mut self, read: &Counts) -> bool {
        self.looks += 1;
        self.shown = read.clone();
        counters::add_up(read)
    }
}

impl Office {
    /// An hour is over and not closed.
    fn is_due(&self, belt: &Belt) -> bool {
        self.closed.get(&HOURS).copied().unwrap_or(0) < belt.hours(HOURS_OF_SHIFT)
    }

    fn work(&mut self, belt: &Belt, random: &mut Random) -> Vec<Step> {
        self.next = later(belt, random);
        let mut steps = looking();
        if self.is_due(belt) {
            steps.extend([
                Step::Read(HOURS),
                Step::Add(HOURS, 1),
                Step::Copy(FRAMES, CLOSED_FRAMES),
                Step::Copy(REJECTED, CLOSED_REJECTED),
                Step::Commit,
            ]);
        } else {
            steps.push(Step::Abort);
        }
        if random.one_in(2) {
            steps.extend(counters::PAGES.map(Step::Purge));
        }
        steps
    }

    fn committed(&mut self, read: &Counts) -> bool {
        *self.closed.entry(HOURS).or_default() += 1;
        self.closed.insert(CLOSED_FRAMES, read[&FRAMES]);
        self.closed.insert(CLOSED_REJECTED, read[&REJECTED]);
        counters::add_up(read)
    }
}

/// When to look again, in frames that have passed.
fn later(belt: &Belt, random: &mut Random) -> u64 {
    belt.passed() + 1 + random.below(LOOK) as u64
}

/// Begins, and reads all that the heads count.
fn looking() -> Vec<Step> {
    let reads = counters::of_heads().map(Step::Read);
    std::iter::once(Step::Begin).chain(reads).collect()
}

#[cfg(test)]
mod tests {
    use super::*;

    #[test]
    fn kinds_by_digits() {
        assert_eq!(kinds_of("00011101"), Some(KINDS));
        assert_eq!(kinds_of("22222222"), Some([Kind::Keeping; STATIONS]));
        for wrong in ["", "0001110", "000111011", "00011103", "0001110x"] {
            assert_eq!(kinds_of(wrong), None, "{wrong}");
        }
    }
}
