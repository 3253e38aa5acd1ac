//! Messages, calls and answers in words.

use crate::line::call::Call;
use crate::line::message::{Commit, Down, Grant, PageMessage, Up};
use crate::line::sets::{address, page_of, rising, Addresses, PageSet, OBJECTS, STATIONS};
use crate::line::{Answer, Kind};
use crate::record::Record;

/// A message up, with its kind's number in front.
pub fn up(message: &Up, kind: Kind) -> String {
    match message {
        Up::Read {
            address,
            transaction,
        } => format!("1 read {address} (t{transaction})"),
        Up::Write {
            page,
            objects,
            transaction,
        } => {
            let mut set = Addresses::default();
            set.join(*page, *objects);
            format!("2 write {} (t{transaction})", braces(&set))
        }
        Up::Commit(commit) => format!("3 {}", committing(commit, kind)),
        Up::Abort { transaction } => format!("4 abort (t{transaction})"),
        Up::Purge { page } => format!("5 purge page {page}"),
        Up::Busy {
            requester,
            transaction,
        } => format!("6 busy for {requester} (t{transaction})"),
        Up::Done {
            requester,
            transaction,
            dropped,
        } => {
            let dropped = pages_or_nothing(*dropped);
            format!("7 done for {requester} (t{transaction}), drops {dropped}")
        }
        Up::WrittenSet {
            page,
            transaction,
            written,
        } => {
            let mut set = Addresses::default();
            set.join(*page, *written);
            format!(
                "8 written on page {page} (t{transaction}): {}",
                braces(&set)
            )
        }
    }
}

/// A message down.
pub fn down(message: &Down, kind: Kind) -> String {
    match message {
        Down::Page(page) => page_message(page, kind),
        Down::DeEscalate { page, transaction } => {
            format!("19 de-escalate page {page} (t{transaction})")
        }
        Down::Callback {
            requester,
            transaction,
            objects,
        } => format!(
            "20 callback {} for {requester} (t{transaction})",
            braces(objects)
        ),
        Down::Committed {
            transaction,
            commit,
        } => format!("21 committed (t{transaction}), number {commit}"),
        Down::Aborted { transaction, cause } => {
            format!("22 aborted (t{transaction}), cause {}", *cause as u8)
        }
        Down::Invalidate { objects } => format!("23 invalidate {}", braces(objects)),
    }
}

/// 16, 17 or 18; the version is told to validating stations only, which alone use it.
fn page_message(message: &PageMessage, kind: Kind) -> String {
    let page = page_of(message.address);
    let lock = match message.grant {
        Grant::Page => String::new(),
        Grant::Object => String::from(", object locks"),
        Grant::Whole => String::from(", whole lock"),
    };
    let version = match kind.locks() {
        true => String::new(),
        false => format!(", versions {}", versions(message)),
    };
    let mut set = Addresses::default();
    set.join(page, message.unavailable);
    let unavailable = match message.unavailable {
        0 => String::new(),
        _ => format!(", unavailable {}", braces(&set)),
    };
    let (number, transaction) = (message.grant as u8, message.transaction);
    format!("{number} page {page} (t{transaction}){lock}{version}{unavailable}")
}

/// Those that are not 0, by address; 0 where all are.
fn versions(message: &PageMessage) -> String {
    let page = page_of(message.address);
    let told: Vec<String> = (0..)
        .zip(message.versions)
        .filter(|(_, version)| *version != 0)
        .map(|(object, version)| format!("{} v{version}", address(page, object)))
        .collect();
    match told.len() {
        0 => String::from("0"),
        _ => told.join(" "),
    }
}

fn committing(commit: &Commit, kind: Kind) -> String {
    let mut parts = Vec::new();
    if !commit.record.reads.is_empty() {
        parts.push(format!("read {}", addresses(&commit.record.reads)));
    }
    if !commit.record.writes.is_empty() {
        parts.push(format!("wrote {}", addresses(&commit.record.writes)));
    }
    if !kind.locks() {
        let mut told = Vec::new();
        for (address, version) in commit.versioned() {
            let part = format!("{address} v{version}");
            if !told.contains(&part) {
                told.push(part);
            }
        }
        parts.extend(told);
    }
    let transaction = commit.record.transaction;
    match parts.len() {
        0 => format!("commit (t{transaction})"),
        _ => format!("commit (t{transaction}): {}", parts.join(", ")),
    }
}

fn addresses(entries: &[(u8, u64)]) -> String {
    let all: Vec<String> = entries
        .iter()
        .map(|(address, _)| address.to_string())
        .collect();
    all.join(" ")
}

/// A record as archived.
pub fn archived(record: &Record) -> String {
    format!("archives commit {}", record.commit)
}

/// Addresses of a set, in braces.
pub fn braces(set: &Addresses) -> String {
    format!("{{{}}}", list(set))
}

/// Addresses of a set, by commas.
pub fn list(set: &Addresses) -> String {
    let all: Vec<String> = rising(set.pages())
        .flat_map(|page| {
            let on = set.on(page);
            rising(on).map(move |object| address(page, object).to_string())
        })
        .collect();
    all.join(", ")
}

fn pages_or_nothing(set: PageSet) -> String {
    match set {
        0 => String::from("nothing"),
        _ => pages(set),
    }
}

/// "page 1" or "pages 1, 2".
pub fn pages(set: PageSet) -> String {
    let all: Vec<String> = rising(set).map(|page| page.to_string()).collect();
    let word = if all.len() == 1 { "page" } else { "pages" };
    format!("{word} {}", all.join(", "))
}

/// Stations of a set, by "and".
pub fn stations(set: u8) -> String {
    let all: Vec<String> = rising(set).map(|station| station.to_string()).collect();
    all.join(" and ")
}

/// What an owner calls.
pub fn call(call: &Call) -> String {
    match call {
        Call::Begin(_) => String::from("begin"),
        Call::Read(_, address) => format!("read {address}"),
        Call::Write(_, address, value) => format!("write {address}={value}"),
        Call::WriteSet(_, page, set, values) => {
            let write = |object: u8| {
                let address = u32::from(object) + page * OBJECTS as u32;
                format!("{address}={}", values[object as usize])
            };
            let writes: Vec<String> = rising(*set).map(write).collect();
            format!("write {}", writes.join(" "))
        }
        Call::Commit(_) => String::from("commit"),
        Call::Abort(_) => String::from("abort"),
        Call::Purge(_, page) => format!("purge page {page}"),
        _ => String::new(),
    }
}

/// What an owner is told; None where it is told nothing.
pub fn answer(answer: Answer) -> Option<String> {
    Some(match answer {
        Answer::Begun(transaction) => format!("t{transaction}"),
        Answer::Value(value) => format!("value {value}"),
        Answer::Waits => String::from("waits"),
        Answer::Written => String::from("written"),
        Answer::Committed(commit) => format!("committed {commit}"),
        Answer::Dropped => String::from("aborted"),
        Answer::Aborted(cause) => format!("aborted, cause {}", cause as u8),
        Answer::Purged => String::from("purged"),
        Answer::Nothing => return None,
    })
}

/// A message's bytes in words, up if the server takes its kind; as bytes of no message where they decode to none.
pub fn bytes(bytes: &[u8], kinds: &[Kind; STATIONS]) -> String {
    if let Ok((station, message)) = Up::decode(bytes, kinds) {
        return up(&message, kinds[station as usize]);
    }
    // 8 is no station, so every requester is another
    match Down::decode(bytes, STATIONS as u8) {
        Ok((station, message)) => down(&message, kinds[station as usize]),
        Err(_) => format!("{} bytes", bytes.len()),
    }
}
