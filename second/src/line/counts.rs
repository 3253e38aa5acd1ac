//! What the runs reached: kinds, causes, numbers, victims, lengths.

use super::call::Call;
use super::draining::Drained;
use super::message::Field;
use super::places::Place;
use super::sets::{PageSet, STATIONS};
use super::station::Station;
use super::world::{Outcome, Reply, World};
use super::{Answer, Cause, Number};
use std::fmt::{self, Display, Formatter};

/// A place for each number that a call of a line is refused with.
type Refusals = [u64; Number::Long as usize + 1];

#[derive(Clone, Debug, Default, PartialEq, Eq)]
pub struct Counts {
    pub runs: u64,
    /// Ends of lines where demand 3 was claimed and held: of runs, and of what was drained from moments of theirs.
    pub claimed: u64,
    pub calls: u64,
    /// Messages sent, by kind.
    pub kinds: [u64; 24],
    /// 22s by cause.
    pub causes: [u64; 5],
    /// Transactions ended by 23.
    pub ended_by_23: u64,
    /// 16s for a transaction that is over.
    pub ignored_16: u64,
    /// Refusals of owners' calls, by number.
    pub owners_numbers: Refusals,
    /// Refusals of raw messages at the server and at a station, by number.
    pub server_numbers: Refusals,
    pub station_numbers: Refusals,
    pub raw_accepted: u64,
    pub victims: u64,
    /// Steps with more than one victim.
    pub steps_with_victims: u64,
    pub records: u64,
    /// Calls behind which nothing was under way, where everybody who waits leads out.
    pub quiet: u64,
    /// Lines drained from a moment of theirs, by the rounds until nobody waited, and the most deliveries in one.
    pub drained: [u64; 9],
    pub most_deliveries: usize,
    /// 8s with an empty set.
    pub empty_8: u64,
    /// 16s to 18s with unavailable objects.
    pub with_unavailable: u64,
    /// 7s that drop no page.
    pub dropping_nothing: u64,
    pub sets: Sets,
    pub keeps: Keeps,
    pub longest_line: usize,
    pub longest_list: usize,
    pub most_sent_by_server: usize,
    pub most_sent_by_station: usize,
    pub most_records: usize,
}

/// Document 02, wish 9: what became of sets of several objects.
#[derive(Clone, Debug, Default, PartialEq, Eq)]
pub struct Sets {
    /// Written at the call.
    pub at_once: u64,
    /// Asked for, all of them, and those under no lock yet alone.
    pub whole: u64,
    pub in_part: u64,
    /// 20s, 17s and 18s for one; 17s name nothing, so what waits at the station tells.
    pub called_back: u64,
    pub granted: [u64; 2],
    /// Refused for number 15, and for number 4.
    pub long: u64,
    pub range: u64,
}

impl Sets {
    fn note(&mut self, set: u8, reply: &Reply) {
        if set.count_ones() < 2 {
            return;
        }
        match reply {
            Reply::Refused(Number::Long) => self.long += 1,
            Reply::Refused(Number::Range) => self.range += 1,
            Reply::Accepted(outcome) => match outcome.sent.first() {
                None => self.at_once += 1,
                Some(request) if Field::Sets.byte(request) == set => self.whole += 1,
                Some(_) => self.in_part += 1,
            },
            _ => (),
        }
    }

    /// A page to a station whose write of so many objects is out.
    fn granted(&mut self, kind: u8, objects: u32) {
        if let (17 | 18, 2..) = (kind, objects) {
            self.granted[usize::from(kind) - 17] += 1;
        }
    }

    fn missing(&self) -> Option<&'static str> {
        let reached = [
            (self.at_once, "a set written at once"),
            (self.whole, "a set asked for"),
            (self.in_part, "a set asked for in part"),
            (self.called_back, "a set called back"),
            (self.granted[0], "a set granted by 17"),
            (self.granted[1], "a set granted by 18"),
            (self.long, "a set refused for its length"),
            (self.range, "a set of a validating station"),
        ];
        let missed = reached.into_iter().find(|(count, _)| *count == 0);
        missed.map(|(_, what)| what)
    }
}

/// Document 02, wish 10: what became of kept locks.
#[derive(Clone, Debug, Default, PartialEq, Eq)]
pub struct Keeps {
    /// Ends of transactions behind which a page was still locked whole: committed, aborted by the owner, by the server.
    pub outlived: [u64; 3],
    /// 19s that found the station idle, with an open transaction, and with its commit out.
    pub asked: [u64; 3],
    /// 8s through which the server met a transaction.
    pub met: u64,
    /// Behind a 19 to a keeping station, in the same step, cause 3.
    pub before_cause_3: u64,
    /// Purges refused for a kept lock.
    pub purges: u64,
}

impl Keeps {
    fn note(&mut self, call: &Call, taken: Option<&[u8]>, reply: &Reply, station: &Station) {
        let (_, whole) = station.locks();
        if !station.kind().keeps() {
            return;
        }
        match (call, reply) {
            (Call::Purge(_, page), Reply::Refused(Number::Kept)) => {
                self.purges += u64::from(whole.checked_shr(*page).unwrap_or(0) & 1);
            }
            (_, Reply::Accepted(outcome)) => {
                self.ended(outcome.answer, whole);
                if taken.is_some_and(|taken| Field::Kind.byte(taken) == 19) {
                    self.asked[standing(station)] += 1;
                }
            }
            _ => (),
        }
    }

    fn ended(&mut self, answer: Answer, whole: PageSet) {
        let end = match answer {
            Answer::Committed(_) => 0,
            Answer::Dropped => 1,
            Answer::Aborted(_) => 2,
            _ => return,
        };
        self.outlived[end] += u64::from(whole != 0);
    }

    /// What one step of the server sends.
    fn sent(&mut self, sent: &[Vec<u8>], world: &World) {
        let to_keeping = |message: &Vec<u8>| {
            let station = Field::Station.byte(message) as usize;
            Field::Kind.byte(message) == 19 && world.kinds[station].keeps()
        };
        let cause_3 = |message: &Vec<u8>| {
            Field::Kind.byte(message) == 22
                && Field::ObjectOrCause.byte(message) == Cause::Locked as u8
        };
        let behind = |pair: &[Vec<u8>]| to_keeping(&pair[0]) && cause_3(&pair[1]);
        self.before_cause_3 += u64::from(sent.windows(2).any(behind));
    }

    fn missing(&self) -> Option<&'static str> {
        let [committed, dropped, aborted] = self.outlived;
        let [idle, open, committing] = self.asked;
        let reached = [
            (committed, "a lock kept behind a commit"),
            (dropped, "a lock kept behind an owner's abort"),
            (aborted, "a lock kept behind a 22"),
            (idle, "a 19 for a keeping station that is idle"),
            (open, "a 19 for an open one"),
            (committing, "a 19 for one whose commit is out"),
            (self.met, "a transaction met through an 8"),
            (self.before_cause_3, "a 19 before cause 3"),
            (self.purges, "a purge under a kept lock"),
        ];
        let missed = reached.into_iter().find(|(count, _)| *count == 0);
        missed.map(|(_, what)| what)
    }
}

/// An 8 through which the server has met a transaction; before it these were the latest.
fn meets_by_8(taken: Option<&[u8]>, before: [u32; STATIONS], world: &World) -> bool {
    taken.is_some_and(|taken| Field::Kind.byte(taken) == 8) && world.server.latest() != before
}

/// Idle, open, or with its commit out.
fn standing(station: &Station) -> usize {
    usize::from(station.is_open()) + usize::from(station.commits())
}

impl Counts {
    pub fn note_drained(&mut self, drained: &Drained) {
        self.drained[drained.rounds] += 1;
        self.most_deliveries = self.most_deliveries.max(drained.deliveries);
    }

    /// A call, the message that it took or was given, what it came to, and which transactions the server had met before.
    pub fn note(
        &mut self,
        call: &Call,
        taken: Option<&[u8]>,
        reply: &Reply,
        world: &World,
        before: [u32; STATIONS],
    ) {
        self.calls += 1;
        if let Call::WriteSet(_, _, set, _) = call {
            self.sets.note(*set, reply);
        }
        if let Some(station) = call.station() {
            let station = &world.stations[usize::from(station)];
            self.keeps.note(call, taken, reply, station);
        }
        match reply {
            Reply::Refused(number) => self.numbers_of(call)[*number as usize] += 1,
            Reply::Accepted(outcome) => {
                self.accepted(call, outcome, world);
                self.keeps.met += u64::from(meets_by_8(taken, before, world));
                self.taken(taken.and_then(<[u8]>::first).copied(), outcome.answer);
            }
            Reply::Ready | Reply::Misplaced | Reply::Empty => (),
        }
    }

    fn taken(&mut self, kind: Option<u8>, answer: Answer) {
        match (kind, answer) {
            (Some(23), Answer::Aborted(_)) => self.ended_by_23 += 1,
            (Some(16), Answer::Nothing) => self.ignored_16 += 1,
            _ => (),
        }
    }

    fn numbers_of(&mut self, call: &Call) -> &mut Refusals {
        match call {
            Call::Server(_) | Call::ServerRaw(_) => &mut self.server_numbers,
            Call::Station(_) | Call::StationRaw(..) => &mut self.station_numbers,
            _ => &mut self.owners_numbers,
        }
    }

    fn accepted(&mut self, call: &Call, outcome: &Outcome, world: &World) {
        self.raw_accepted += u64::from(matches!(call, Call::ServerRaw(_) | Call::StationRaw(..)));
        self.records += outcome.records.len() as u64;
        self.victims += outcome.victims.len() as u64;
        self.steps_with_victims += u64::from(outcome.victims.len() > 1);
        self.most_records = self.most_records.max(outcome.records.len());
        let at_server = matches!(call, Call::Server(_) | Call::ServerRaw(_));
        let most = if at_server {
            &mut self.most_sent_by_server
        } else {
            &mut self.most_sent_by_station
        };
        *most = (*most).max(outcome.sent.len());
        if at_server {
            let waiting = world.server.waiters().count_ones() as usize;
            self.longest_list = self.longest_list.max(waiting);
            self.keeps.sent(&outcome.sent, world);
        }
        for message in &outcome.sent {
            self.sent(message, world);
        }
    }

    fn sent(&mut self, message: &[u8], world: &World) {
        let kind = Field::Kind.byte(message);
        let station = Field::Station.byte(message);
        self.kinds[kind as usize] += 1;
        match kind {
            22 => self.causes[Field::ObjectOrCause.byte(message) as usize] += 1,
            8 => self.empty_8 += u64::from(Field::Sets.byte(message) == 0),
            7 => self.dropping_nothing += u64::from(Field::Pages.word(message, 0) == 0),
            16..=18 => {
                self.with_unavailable += u64::from(Field::Sets.byte(message) != 0);
                self.sets
                    .granted(kind, world.stations[station as usize].asks_for());
            }
            20 => self.sets.called_back += u64::from(Field::Sets.sets(message, 0).count() > 1),
            _ => (),
        }
        let length = world.up_length(station).max(world.down_length(station));
        self.longest_line = self.longest_line.max(length);
    }

    /// The first thing that was not reached, of all that a batch must reach.
    pub fn missing(&self) -> Option<String> {
        let raw = |number: usize| self.server_numbers[number] + self.station_numbers[number];
        let kinds = (1..=8)
            .chain(16..=23)
            .map(|kind| (self.kinds[kind], "kind", kind));
        let causes = (1..=4).map(|cause| (self.causes[cause], "cause", cause));
        let owners = (7..=11)
            .chain([Number::Long as usize])
            .map(|n| (self.owners_numbers[n], "owners' number", n));
        let raws = (2..=6).map(|n| (raw(n), "messages' number", n));
        let all = kinds.chain(causes).chain(owners).chain(raws);
        all.filter(|(count, _, _)| *count == 0)
            .map(|(_, what, n)| format!("{what} {n}"))
            .next()
            .or_else(|| self.sets.missing().map(String::from))
            .or_else(|| self.keeps.missing().map(String::from))
    }
}

impl Display for Counts {
    fn fmt(&self, f: &mut Formatter<'_>) -> fmt::Result {
        write!(f, "{} runs", self.runs)?;
        if self.claimed > 0 {
            write!(f, " ({} ends claiming demand 3)", self.claimed)?;
        }
        writeln!(
            f,
            ", {} calls, {} commits, {} victims ({} steps with several)",
            self.calls, self.records, self.victims, self.steps_with_victims
        )?;
        row(f, "sent up", &self.kinds, 1..=8)?;
        row(f, "sent down", &self.kinds, 16..=23)?;
        row(f, "22 by cause", &self.causes, 1..=4)?;
        row(
            f,
            "owners refused",
            &self.owners_numbers,
            (4..=11).chain([Number::Long as usize]),
        )?;
        row(f, "server refused", &self.server_numbers, 2..=6)?;
        row(f, "stations refused", &self.station_numbers, 2..=6)?;
        writeln!(
            f,
            "ended by 23: {}, 16 ignored: {}, 8 empty: {}, 7 dropping nothing: {}, pages with unavailable objects: {}, raw accepted: {}",
            self.ended_by_23, self.ignored_16, self.empty_8, self.dropping_nothing, self.with_unavailable, self.raw_accepted
        )?;
        let Sets {
            at_once,
            whole,
            in_part,
            called_back,
            granted: [objects, pages],
            long,
            range,
        } = self.sets;
        writeln!(
            f,
            "sets of several: {at_once} written at once, {whole} asked for, {in_part} in part, {called_back} 20s, {objects} 17s, {pages} 18s, {long} too long, {range} of validating owners"
        )?;
        let Keeps {
            outlived: [committed, dropped, aborted],
            asked: [idle, open, committing],
            met,
            before_cause_3,
            purges,
        } = self.keeps;
        writeln!(
            f,
            "locks kept behind {committed} commits, {dropped} aborts of owners, {aborted} of the server; 19s for {idle} idle, {open} open, {committing} committing; {met} transactions met through an 8, {before_cause_3} 19s before cause 3, {purges} purges refused"
        )?;
        writeln!(f, "nothing under way: {} times", self.quiet)?;
        row(
            f,
            "drained, by rounds until nobody waits",
            &self.drained,
            0..=8,
        )?;
        write!(
            f,
            "longest line {}, longest waiting list {}, most deliveries in a draining {}, most in one step: server {} messages and {} records, station {}",
            self.longest_line,
            self.longest_list,
            self.most_deliveries,
            self.most_sent_by_server,
            self.most_records,
            self.most_sent_by_station
        )
    }
}

fn row(
    f: &mut Formatter<'_>,
    name: &str,
    counts: &[u64],
    numbers: impl IntoIterator<Item = usize>,
) -> fmt::Result {
    write!(f, "{name}:")?;
    for n in numbers {
        write!(f, "  {n}: {}", counts[n])?;
    }
    writeln!(f)
}
