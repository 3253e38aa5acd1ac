//! A shift: who acts next is chosen by chance, until every frame is counted and every line is empty.

use crate::belt::Belt;
use crate::counters::FRAMES;
use crate::line::{Done, Fault, Line};
use crate::owner::{Came, Owner};
use crate::staff::{self, Staff, KINDS, PANEL};
use crate::stretch::Stretch;
use crate::turns::Turns;
use second::line::call::Call;
use second::line::message::Field;
use second::line::places::Place;
use second::line::sets::STATIONS;
use second::line::{Answer, Cause, Kind};
use second::random::Random;
use std::io::Write;

/// The cause of an abort that no further try would mend.
const NO_NUMBERS: u8 = Cause::Spent as u8;
/// Turns to a frame: the heads meet often, and none is left behind for long.
pub const PACE: usize = 80;

pub struct Shift<W> {
    pub line: Line<W>,
    pub kinds: [Kind; STATIONS],
    pub staff: Staff,
    pub belt: Belt,
    /// Turns to a frame.
    pub pace: usize,
    /// Whose message the server takes, by shares; else by chance.
    pub turns: Option<Turns>,
    pub calls: u64,
    pub told: [Told; STATIONS],
    /// Messages on each station's two lines.
    pub messages: [u64; STATIONS],
    /// Copies given back.
    pub purged: u64,
    owners: [Owner; STATIONS],
    random: Random,
    last_look: bool,
    /// Calls of which a chart is drawn.
    pub stretch: Option<Stretch>,
}

/// What an owner was told of its transactions.
#[derive(Clone, Copy, Default)]
pub struct Told {
    pub commits: u64,
    /// By cause, 0 for its own wish.
    pub aborts: [u64; 5],
}

/// An end that can act.
#[derive(Clone, Copy)]
enum Move {
    Owner(usize),
    Server(usize),
    Station(usize),
}

impl<W: Write> Shift<W> {
    pub fn new(seed: u64, frames: u64, archive: W) -> Shift<W> {
        Shift::of(KINDS, seed, frames, archive)
    }

    /// The panel, a validating station now, works through the registers of a window.
    pub fn with_window(
        mut kinds: [Kind; STATIONS],
        seed: u64,
        frames: u64,
        archive: W,
    ) -> Shift<W> {
        kinds[PANEL] = Kind::Validating;
        let mut shift = Shift::of(kinds, seed, frames, archive);
        shift.line.put_behind_window(PANEL);
        shift
    }

    /// Heads that lock write what they count on a page at once.
    pub fn write_sets(&mut self) {
        self.staff.sets = std::array::from_fn(|head| self.kinds[head].locks());
    }

    /// With stations of these kinds.
    pub fn of(kinds: [Kind; STATIONS], seed: u64, frames: u64, archive: W) -> Shift<W> {
        let mut random = Random::new(seed);
        Shift {
            line: Line::fresh(kinds, archive),
            kinds,
            staff: Staff::default(),
            belt: Belt::new(random.number(), frames),
            pace: PACE,
            turns: None,
            calls: 0,
            told: [Told::default(); STATIONS],
            messages: [0; STATIONS],
            purged: 0,
            owners: std::array::from_fn(|station| Owner::new(station as u8)),
            random,
            last_look: false,
            stretch: None,
        }
    }

    /// A frame passes, or an end acts. False when nothing is left to do.
    pub fn turn(&mut self) -> Result<bool, String> {
        let moves = self.moves();
        if moves.is_empty() || self.random.one_in(self.pace) {
            if let Some(frame) = self.belt.next() {
                self.staff.sees(&frame);
                return Ok(true);
            }
        }
        if moves.is_empty() {
            return self.closing();
        }
        let call = match self.random.pick(&moves) {
            Move::Owner(station) => self.owners_call(station),
            Move::Server(station) => Call::Server(self.served(station)? as u8),
            Move::Station(station) => Call::Station(station as u8),
        };
        self.make(&call)?;
        Ok(true)
    }

    fn moves(&self) -> Vec<Move> {
        let mut moves = Vec::with_capacity(3 * STATIONS);
        for station in 0..STATIONS {
            let owner = &self.owners[station];
            let has_work = !owner.is_idle() || self.staff.wants(station, &self.belt);
            let (up, down) = self.line.under_way(station);
            let able = [
                (has_work && !owner.waits(), Move::Owner(station)),
                (up, Move::Server(station)),
                (down, Move::Station(station)),
            ];
            moves.extend(able.iter().filter(|(can, _)| *can).map(|(_, one)| *one));
        }
        moves
    }

    /// The line from which the server takes a message: the one that chance picked, or the one whose turn it is.
    fn served(&mut self, picked: usize) -> Result<usize, String> {
        let under_way = std::array::from_fn(|station| self.line.under_way(station).0);
        match &mut self.turns {
            Some(turns) => turns.next(under_way),
            None => Ok(picked),
        }
    }

    fn owners_call(&mut self, station: usize) -> Call {
        let owner = &mut self.owners[station];
        if owner.is_idle() {
            owner.start(self.staff.work(station, &self.belt, &mut self.random));
        }
        owner.call()
    }

    fn make(&mut self, call: &Call) -> Result<(), String> {
        self.calls += 1;
        let made = self.line.call(call);
        if let Some(stretch) = &mut self.stretch {
            stretch.made(call, &made)?;
        }
        for message in made.iter().flat_map(|done| &done.sent) {
            self.messages[usize::from(Field::Station.byte(message))] += 1;
        }
        match (made, call.station()) {
            (Ok(done), Some(station)) => self.tell(station.into(), &done),
            (Ok(_), None) => Ok(()),
            (Err(fault), station) => self.fault(call, station, fault),
        }
    }

    fn fault(&mut self, call: &Call, station: Option<u8>, fault: Fault) -> Result<(), String> {
        match (fault, station) {
            (Fault::Refused(number), Some(station))
                if self.owners[usize::from(station)].may_be_refused(number) =>
            {
                self.owners[usize::from(station)].refused();
                Ok(())
            }
            (fault, _) => Err(format!("call {}, `{call}`: {fault}", self.calls)),
        }
    }

    fn tell(&mut self, station: usize, done: &Done) -> Result<(), String> {
        self.purged += u64::from(done.answer == Answer::Purged);
        let told = &mut self.told[station];
        match self.owners[station].told(done.answer) {
            Came::Further => (),
            Came::Aborted(NO_NUMBERS) => {
                return Err(String::from("the commit numbers are used up"));
            }
            Came::Aborted(cause) => told.aborts[usize::from(cause)] += 1,
            Came::Committed(_) => {
                told.commits += 1;
                if !self.staff.committed(station, self.owners[station].read()) {
                    let who = staff::name(station);
                    return Err(format!(
                        "call {}: what the {who} read does not add up",
                        self.calls
                    ));
                }
            }
        }
        Ok(())
    }

    /// Nothing can act and all frames have passed: the panel looks a last time, then the shift is over.
    fn closing(&mut self) -> Result<bool, String> {
        if !self.staff.is_done(&self.belt) {
            return Err(String::from(
                "the line stands still, and not every frame is counted",
            ));
        }
        if self.last_look {
            return Ok(false);
        }
        self.last_look = true;
        let steps = self.staff.panel.work(&self.belt, &mut self.random);
        self.owners[PANEL].start(steps);
        Ok(true)
    }

    /// Frames of commits that were told.
    pub fn counted(&self) -> u64 {
        self.staff.counted(FRAMES)
    }

    /// Commits told, and transactions that ended by each cause.
    pub fn all_told(&self) -> Told {
        self.told.iter().fold(Told::default(), |mut all, told| {
            all.commits += told.commits;
            for (sum, more) in all.aborts.iter_mut().zip(told.aborts) {
                *sum += more;
            }
            all
        })
    }
}

/// A whole shift.
#[cfg(test)]
pub fn worked<W: Write>(seed: u64, frames: u64, archive: W) -> Shift<W> {
    let mut shift = Shift::new(seed, frames, archive);
    while shift.turn().unwrap() {}
    shift
}

#[cfg(test)]
mod tests {
    use super::*;
    use crate::archive;
    use crate::counters::COUNTERS;
    use crate::staff::kinds_of;
    use second::numbers::OK;

    #[test]
    fn every_frame_is_counted_once() {
        for seed in 1..=6 {
            let mut bytes = Vec::new();
            let shift = worked(seed, 400, &mut bytes);
            assert_eq!(shift.counted(), 400);
            let told = shift.all_told();
            assert!(told.aborts[..4].iter().all(|aborts| *aborts > 0));
            assert!(shift.purged > 0);
            let shown = shift.staff.panel.shown.clone();
            let values = COUNTERS.map(|(address, _)| shift.line.value(address));
            let counted = COUNTERS.map(|(address, _)| shift.staff.counted(address));
            let (playback, number) = archive::play(&bytes[..]).unwrap();
            assert_eq!((u64::from(playback.last), number), (told.commits, OK));
            assert_eq!(
                COUNTERS.map(|(address, _)| playback.values[usize::from(address)]),
                values
            );
            assert_eq!(counted, values);
            assert!(shown
                .iter()
                .all(|(address, value)| playback.values[usize::from(*address)] == *value));
        }
    }

    /// .. also where the panel works through registers.
    #[test]
    fn a_panel_behind_a_window() {
        for seed in 1..=3 {
            let mut bytes = Vec::new();
            let mut shift = Shift::with_window(KINDS, seed, 400, &mut bytes);
            while shift.turn().unwrap() {}
            assert_eq!(shift.counted(), 400);
            let window = shift.line.window(PANEL).unwrap();
            assert!(window.accesses > 0 && window.interrupts > 0);
            assert!(shift.staff.panel.looks > 0 && shift.told[PANEL].aborts[2] > 0);
            let commits = shift.all_told().commits;
            let (playback, number) = archive::play(&bytes[..]).unwrap();
            assert_eq!((u64::from(playback.last), number), (commits, OK));
        }
    }

    /// .. and of stations of all three kinds, with single writes and with sets.
    #[test]
    fn stations_of_three_kinds() {
        for (seed, kinds) in (1..).zip(["22211101", "20212100", "22222222", "02102112"]) {
            let kinds = kinds_of(kinds).unwrap();
            let mut bytes = Vec::new();
            let mut shift = Shift::of(kinds, seed, 400, &mut bytes);
            if seed % 2 == 0 {
                shift.write_sets();
            }
            while shift.turn().unwrap() {}
            assert_eq!(shift.counted(), 400);
            assert!(shift.messages.iter().all(|messages| *messages > 0));
            let commits = shift.all_told().commits;
            let (playback, number) = archive::play(&bytes[..]).unwrap();
            assert_eq!((u64::from(playback.last), number), (commits, OK));
        }
    }

    /// A host that cannot keep its archive stops.
    #[test]
    fn an_archive_that_cannot_be_written() {
        let mut room = [0; 500];
        let mut shift = Shift::new(1, 400, &mut room[..]);
        let fault = loop {
            match shift.turn() {
                Ok(more) => assert!(more),
                Err(fault) => break fault,
            }
        };
        assert!(fault.contains("the archive cannot be written"), "{fault}");
    }
}
