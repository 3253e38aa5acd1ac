//! What the program is given: an archive, arguments, and a way for the one to get to the other.

use crate::wounds::Part;
use second::archive::Playback;
use second::generate::{self, Line, Size};
use second::people::{Asked, Play};
use second::program::PIECES;
use second::random::Random;
use second::record::{Record, HEADER};

/// Longer than a program's buffer is.
const LONG: usize = 2_200_000;

/// Arguments that are not understood.
const UNCLEAR: [&[&str]; 26] = [
    &[""],
    &["--"],
    &["-h"],
    &["--at"],
    &["--at=2"],
    &["--total"],
    &["--totalsx"],
    &["--at", ""],
    &["--at", "-1"],
    &["--at", "+1"],
    &["--at", "1x"],
    &["--totals", "--help"],
    &["--at", "--csv"],
    &["archive", "--totals", "--at", "1"],
    &["--counter", "256"],
    &["--counter"],
    &["--record", "0"],
    &["--record", "1", "--counter", "1"],
    &["--from"],
    &["--to", "x"],
    &["--from", "4", "--to", "3"],
    &["--totals", "--from", "1"],
    &["--to", "9", "--at", "3"],
    &["--record", "3", "--to", "4"],
    &["one", "two"],
    &["-", "-"],
];

/// How the archive gets to the program.
#[derive(Clone, Copy, Debug)]
pub enum Way {
    Pieces(usize),
    File,
    /// As a file that is named.
    Named,
    /// Through a pipe that stays open: what is not needed never comes.
    Held,
}

pub struct Case {
    pub archive: Vec<u8>,
    pub arguments: Vec<String>,
    pub way: Way,
    /// Faults made on purpose in one record.
    pub wounds: usize,
}

impl Case {
    pub fn random(random: &mut Random) -> Case {
        let records = match random.below(60) {
            0 => long(random),
            _ => short(random),
        };
        let (archive, wounds) = archive(random, &records);
        let arguments = arguments(random, &archive);
        let way = match random.below(7) {
            0 | 1 => Way::File,
            2 => Way::Held,
            6 if !names(&arguments) => Way::Named,
            _ if archive.len() > 100_000 => Way::Pieces(random.pick(&PIECES[3..])),
            3 => Way::Pieces(1 + random.below(20)),
            _ => Way::Pieces(random.pick(&PIECES)),
        };
        Case {
            archive,
            arguments,
            way,
            wounds,
        }
    }
}

/// An early commit of a long archive: most of it must stay unread.
pub fn early() -> Vec<Case> {
    let archive = generate::archive_of_length(&mut Random::new(1), Size::Mixed, 2 * LONG);
    let ways = [Way::File, Way::Held, Way::Pieces(1_000_000)];
    let asked = ways
        .into_iter()
        .flat_map(|way| ["0", "1", "100"].map(|commit| (way, commit)));
    asked
        .map(|(way, commit)| Case {
            archive: archive.clone(),
            arguments: vec!["--at".to_string(), commit.to_string()],
            way,
            wounds: 0,
        })
        .collect()
}

fn short(random: &mut Random) -> Vec<Record> {
    let (size, count) = match random.below(8) {
        0 => (Size::Large, 4),
        1 => (Size::Mixed, 60),
        2 | 3 => (Size::Mixed, 5),
        _ => (Size::Tiny, 5),
    };
    let count = random.below(count + 1);
    generate::commits(random, &Playback::FRESH, size, count)
}

fn long(random: &mut Random) -> Vec<Record> {
    let size = random.pick(&[Size::Small, Size::Mixed, Size::Large]);
    let mut line = Line::fresh();
    let mut left = LONG + random.below(2 * LONG);
    let mut records = Vec::new();
    while left > 0 {
        let record = line.commit(random, size);
        left = left.saturating_sub(record.header().length() as usize);
        records.push(record);
    }
    records
}

/// The records' archive, whole or damaged, and how many wounds one of them has.
fn archive(random: &mut Random, records: &[Record]) -> (Vec<u8>, usize) {
    let mut parts: Vec<Part> = records.iter().map(Part::of).collect();
    if parts.is_empty() || random.one_in(12) {
        return (concat(&parts, tamed(random)), 0);
    }
    // of a long archive the last ones, so that it is played
    let at = parts.len() - 1 - random.below(parts.len().min(10));
    let count = random.pick(&[0, 1, 1, 1, 2, 3]);
    let wounds = parts[at].wound(random, count);
    let start = parts[..at].iter().map(|part| part.bytes.len()).sum();
    let length = parts[at].bytes.len();
    let mut archive = concat(&parts, vec![]);
    match random.below(12) {
        0 => archive.truncate(start + random.below(length)),
        1 => archive.truncate(start + random.below(HEADER)),
        2 => archive.truncate(start + length),
        3 => generate::change_a_bit(random, &mut archive[start..]),
        _ => {}
    }
    (archive, wounds)
}

fn concat(parts: &[Part], rest: Vec<u8>) -> Vec<u8> {
    let bytes = parts.iter().flat_map(|part| &part.bytes).copied();
    bytes.chain(rest).collect()
}

/// None, or any bytes, with sizes that they often have.
fn tamed(random: &mut Random) -> Vec<u8> {
    let length = random.below(2) * random.below(100);
    let mut bytes = random.bytes(length);
    generate::tame(&mut bytes, random);
    bytes
}

/// Whether an archive is named already.
fn names(arguments: &[String]) -> bool {
    let words: Vec<&str> = arguments.iter().map(String::as_str).collect();
    let more = [&words[..], &["-"]].concat();
    Asked::by(&more).is_err()
}

fn arguments(random: &mut Random, archive: &[u8]) -> Vec<String> {
    let words =
        |words: &[&str]| -> Vec<String> { words.iter().map(|word| word.to_string()).collect() };
    let mut arguments = match random.below(24) {
        0 => return words(random.pick(&[&["--help"][..], &["--version"], &["--csv", "--help"]])),
        1 => return words(random.pick(&UNCLEAR)),
        2..=6 => words(&[]),
        7..=11 => words(&["--totals"]),
        12..=16 => words(&["--at", &commit(random, archive)]),
        17..=20 => words(&["--counter", &counter(random, archive).to_string()]),
        _ => words(&["--record", &commit(random, archive)]),
    };
    let ranges = arguments.is_empty() || arguments[0] == "--counter";
    if ranges && random.one_in(2) {
        let range = range(random, archive);
        arguments.splice(0..0, range);
    }
    if random.one_in(3) {
        let at = if random.one_in(2) { 0 } else { arguments.len() };
        arguments.insert(at, "--csv".to_string());
    }
    if random.one_in(8) {
        arguments.push("-".to_string());
    }
    arguments
}

/// A counter that was written, or any.
fn counter(random: &mut Random, archive: &[u8]) -> usize {
    let writes = Play::whole(archive).writes;
    let written: Vec<usize> = (0..writes.len()).filter(|a| writes[*a] > 0).collect();
    match written.is_empty() || random.one_in(4) {
        true => random.below(256),
        false => random.pick(&written),
    }
}

/// From a commit, to a commit, or both.
fn range(random: &mut Random, archive: &[u8]) -> Vec<String> {
    let [from, to] = ["--from", "--to"].map(|name| [name.to_string(), commit(random, archive)]);
    match random.below(4) {
        0 => from.into(),
        1 => to.into(),
        2 => [to, from].concat(),
        _ => [from, to].concat(),
    }
}

/// A commit around the last good one, or any.
fn commit(random: &mut Random, archive: &[u8]) -> String {
    let last = Play::whole(archive).playback.last;
    let commit = match random.below(9) {
        0 => 0,
        1 => random.below(last as usize + 1) as u32,
        2 => u32::MAX,
        3 => random.number() as u32,
        _ => last + random.pick(&[0, 0, 0, 1, 1, 2]),
    };
    match random.below(20) {
        0 => format!("{commit:020}"),
        // too great by a word of 32 bits
        1 => (u64::from(commit) + (1 << 32)).to_string(),
        // the longest word, and one more
        2 => format!("{commit:04096}"),
        3 => format!("{commit:04097}"),
        _ => commit.to_string(),
    }
}
