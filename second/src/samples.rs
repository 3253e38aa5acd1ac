//! The archives in `samples/`.

use crate::archive::Playback;
use crate::generate::{self, Size};
use crate::random::Random;
use crate::record::Record;

/// Commits of the longer sample.
const LONGER: usize = 200;
/// Fixed, so that the longer sample stays as it is.
const SEED: u64 = 12;

/// The samples' names.
pub const NAMES: [&str; 7] = [
    "c12", "cut", "damaged", "layout", "licence", "longer", "sequence",
];

/// The archive of a sample, by its name.
pub fn named(name: &str) -> Option<Vec<u8>> {
    let records = match name {
        "c12" => vec![c12(), read_of_8()],
        "cut" => return Some(cut()),
        "damaged" => vec![c12(), read_of_8(), wrong_read()],
        "layout" => vec![c12(), no_such_station()],
        "licence" => licence(),
        "longer" => longer(),
        "sequence" => vec![c12(), read_of_8(), later()],
        _ => return None,
    };
    Some(generate::archive(&records))
}

/// Document 01's case C12: station 0 reads 0 at address 8 and writes 1 there.
pub fn c12() -> Record {
    Record {
        reads: vec![(8, 0)],
        writes: vec![(8, 1)],
        commit: 1,
        transaction: 1,
        station: 0,
        kind: 0,
    }
}

/// Behind C12: station 1 reads what it wrote.
pub fn read_of_8() -> Record {
    Record {
        reads: vec![(8, 1)],
        writes: vec![],
        commit: 2,
        transaction: 1,
        station: 1,
        kind: 1,
    }
}

/// Behind those: a read of a value that was never written.
fn wrong_read() -> Record {
    Record {
        reads: vec![(8, 2)],
        writes: vec![(9, 3)],
        commit: 3,
        transaction: 2,
        station: 0,
        kind: 0,
    }
}

/// Counters that count, and a correction by one.
fn licence() -> Vec<Record> {
    let commit = |commit, writes: &[(u8, u64)]| Record {
        reads: vec![],
        writes: writes.to_vec(),
        commit,
        transaction: commit,
        station: 0,
        kind: 0,
    };
    vec![
        commit(1, &[(8, 1500)]),
        commit(2, &[(8, 4000), (9, 7)]),
        commit(3, &[(8, 3999)]),
    ]
}

/// C12's archive without its last five bytes.
fn cut() -> Vec<u8> {
    let mut archive = generate::archive(&[c12(), read_of_8()]);
    archive.truncate(archive.len() - 5);
    archive
}

/// Behind C12: a station that the line does not have.
fn no_such_station() -> Record {
    Record {
        station: 9,
        ..read_of_8()
    }
}

/// Behind commit 2: commits 3 and 4 are lost.
fn later() -> Record {
    Record {
        commit: 5,
        transaction: 2,
        ..read_of_8()
    }
}

/// Of a line with two kinds of station, as it was written first.
fn longer() -> Vec<Record> {
    let random = &mut Random::new(SEED);
    let commits = generate::commits(random, &Playback::FRESH, Size::Tiny, LONGER);
    let of_two_kinds = |record: Record| Record {
        kind: record.station % 2,
        ..record
    };
    commits.into_iter().map(of_two_kinds).collect()
}
