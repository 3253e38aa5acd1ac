//! What a call changed, in few words: the two states are compared, nothing is kept beside them.

use super::words;
use crate::line::message::{Down, Field, Up};
use crate::line::places::Place;
use crate::line::server::{HeldBy, Server, Victim};
use crate::line::sets::{page_bit, rising, Addresses, ObjectSet, PageSet, PAGES, STATIONS};
use crate::line::station::Station;
use crate::line::world::Outcome;
use crate::line::Cause;
use crate::record::Record;

/// What a server's step changed.
pub fn server(
    before: &Server,
    after: &Server,
    taken: Option<&(u8, Up)>,
    outcome: &Outcome,
) -> Vec<String> {
    let mut notes = Vec::new();
    if let Some((from, Up::Abort { transaction })) = taken {
        notes.push(format!("t{transaction} of {from} is over"));
    }
    for record in &outcome.records {
        if let Ok(record) = Record::decode(record) {
            notes.push(words::archived(&record));
        }
    }
    for (address, version) in after.versions().iter().enumerate() {
        if before.versions()[address] != *version {
            notes.push(format!("{address}: version {version}"));
        }
    }
    for station in 0..STATIONS as u8 {
        locks(before, after, station, &mut notes);
    }
    for victim in &outcome.victims {
        notes.push(of_victim(victim));
    }
    for station in 0..STATIONS as u8 {
        if has_lock(before, station) && !has_lock(after, station) {
            notes.push(format!("frees the locks of {station}"));
        }
    }
    notes.extend(ended(taken, outcome).filter_map(|station| keeps(after, station)));
    for station in 0..STATIONS as u8 {
        listing(before, after, station, &mut notes);
    }
    notes.extend(outcome.sent.iter().filter_map(|sent| failed_commit(sent)));
    waiting(before, after, &mut notes);
    if notes.is_empty() && outcome.sent.is_empty() {
        notes.push(String::from("changes nothing"));
    }
    notes
}

/// Stations whose transactions a step ends: its own message's, if that is a 4, and those of the 21s and 22s.
fn ended<'a>(taken: Option<&'a (u8, Up)>, outcome: &'a Outcome) -> impl Iterator<Item = u8> + 'a {
    let aborted = taken.filter(|(_, message)| matches!(message, Up::Abort { .. }));
    let told = |sent: &&Vec<u8>| matches!(Field::Kind.byte(sent), 21 | 22);
    let told = outcome.sent.iter().filter(told);
    let told = told.map(|sent| Field::Station.byte(sent));
    aborted.map(|(station, _)| *station).into_iter().chain(told)
}

/// What a keeping station has whole behind the end of its transaction.
fn keeps(after: &Server, station: u8) -> Option<String> {
    let (_, whole) = after.locks(station);
    (whole != 0).then(|| format!("{station} keeps {}", words::pages(whole)))
}

/// Why a commit gets 22.
fn failed_commit(sent: &[u8]) -> Option<String> {
    let at = Field::Station.byte(sent);
    let Ok((station, Down::Aborted { cause, .. })) = Down::decode(sent, at) else {
        return None;
    };
    Some(match cause {
        Cause::Cycle => return None,
        Cause::Version => format!("{station} used an old version"),
        Cause::Locked => format!("{station} wrote what is locked"),
        Cause::Spent => String::from("no number is left"),
    })
}

/// A short cycle through the victim, and that it is the youngest on one.
fn of_victim(victim: &Victim) -> String {
    let others = rising(victim.waits_for[victim.station as usize])
        .filter(|other| victim.waits_for[*other as usize] >> victim.station & 1 == 1)
        .fold(0, |set, other| set | 1 << other);
    match others {
        0 => format!("cycle: {} is youngest", victim.station),
        _ => format!(
            "{0} \u{2192} {1} \u{2192} {0}: {0} youngest",
            victim.station,
            words::stations(others)
        ),
    }
}

fn has_lock(server: &Server, station: u8) -> bool {
    server.locks(station) != Default::default()
}

/// Locks gained, and whole locks made locks on objects.
fn locks(before: &Server, after: &Server, station: u8, notes: &mut Vec<String>) {
    let (objects_before, whole_before) = before.locks(station);
    let (objects, whole) = after.locks(station);
    let gained = whole & !whole_before;
    if gained != 0 {
        notes.push(format!("{station} locks {} whole", words::pages(gained)));
    }
    let lost = whole_before & !whole;
    if lost != 0 && has_lock(after, station) {
        notes.push(format!("{} no more whole", words::pages(lost)));
    }
    let gained = without(&objects, &objects_before);
    if gained != Addresses::default() {
        notes.push(format!("{station} locks {}", words::list(&gained)));
    }
}

fn without(set: &Addresses, other: &Addresses) -> Addresses {
    let mut left = Addresses::default();
    for page in 0..PAGES as u8 {
        let on: ObjectSet = set.on(page) & !other.on(page);
        left.join(page, on);
    }
    left
}

fn listing(before: &Server, after: &Server, station: u8, notes: &mut Vec<String>) {
    let (listed_before, listed) = (before.listed(station), after.listed(station));
    let gained: PageSet = listed & !listed_before;
    if gained != 0 {
        notes.push(format!("lists {station} for {}", words::pages(gained)));
    }
    let lost: PageSet = listed_before & !listed;
    if lost != 0 {
        notes.push(format!("unlists {station} for {}", words::pages(lost)));
    }
}

/// Waiters that are new, or held by something else than before.
fn waiting(before: &Server, after: &Server, notes: &mut Vec<String>) {
    let held_before = before.held_up();
    for held in after.held_up() {
        if !held_before.contains(&held) {
            let (station, by) = held;
            notes.push(format!("{station} waits: {}", held_by(by)));
        }
    }
}

fn held_by(by: HeldBy) -> String {
    match by {
        HeldBy::Blocked(stations) => format!("behind {}", words::stations(stations)),
        HeldBy::Whole(holders) => format!("8 owed by {}", words::stations(holders)),
        HeldBy::Callbacks { owed, busy } if owed == busy => {
            format!("{} busy", words::stations(busy))
        }
        HeldBy::Callbacks { owed, .. } => format!("7 owed by {}", words::stations(owed)),
    }
}

/// What a station's step or its owner's call changed.
pub fn station(
    before: &Station,
    after: &Station,
    taken: Option<&Down>,
    outcome: &Outcome,
) -> Vec<String> {
    let mut notes = Vec::new();
    if is_callback(taken) && after.has_kept() && outcome.sent.iter().any(|sent| sent[0] == 6) {
        notes.push(String::from("keeps the callback"));
    }
    if let Some(Down::Page(_)) = taken {
        if before == after {
            notes.push(String::from("ignores it"));
        }
        return notes;
    }
    let dropped = before.cached() & !after.cached();
    if dropped != 0 {
        notes.push(format!("drops {}", words::pages(dropped)));
    }
    let marked = marked(before, after);
    if marked != Addresses::default() {
        notes.push(format!("{} unavailable", words::list(&marked)));
    }
    if let Some(Down::DeEscalate { page, transaction }) = taken {
        notes.push(de_escalated(*page, *transaction, after));
    }
    if taken.is_some() && before == after {
        notes.push(String::from("changes nothing"));
    }
    notes
}

/// What is left of a whole lock.
fn de_escalated(page: u8, transaction: u32, after: &Station) -> String {
    let (locked, _) = after.locks();
    let mut left = Addresses::default();
    left.join(page, locked.on(page));
    if left == Addresses::default() {
        return match after.kind().keeps() {
            true => format!("gives up {}", words::pages(page_bit(page))),
            false => format!("t{transaction} is over"),
        };
    }
    format!("lock on {} left", words::list(&left))
}

fn is_callback(taken: Option<&Down>) -> bool {
    matches!(taken, Some(Down::Callback { .. }))
}

/// Objects newly unavailable on pages that stay.
fn marked(before: &Station, after: &Station) -> Addresses {
    let shown = |station: &Station| -> Addresses {
        station.copies().map(|(address, _, _)| address).collect()
    };
    let mut gone = without(&shown(before), &shown(after));
    for page in rising(!after.cached()) {
        gone.0[page as usize] = 0;
    }
    gone
}
