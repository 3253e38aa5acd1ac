//! Pairs of archives: equal, cut, continued, parted at any field, of different lines, and damaged.

use second::archive::Playback;
use second::generate::{self, Size};
use second::random::Random;
use second::record::{Record, KINDS};

pub struct Pair {
    pub first: Vec<u8>,
    pub second: Vec<u8>,
    pub what: &'static str,
}

impl Pair {
    pub fn turned(&self) -> Pair {
        Pair {
            first: self.second.clone(),
            second: self.first.clone(),
            what: self.what,
        }
    }
}

/// The fields at which a pair is made to part.
pub const FIELDS: [&str; 7] = [
    "a read less",
    "a write less",
    "transaction",
    "station",
    "kind",
    "an address",
    "a value",
];

fn size(random: &mut Random) -> Size {
    random.pick(&[Size::Tiny, Size::Tiny, Size::Small, Size::Mixed])
}

fn line(random: &mut Random) -> Vec<Record> {
    let (size, count) = (size(random), random.below(9));
    generate::commits(random, &Playback::FRESH, size, count)
}

fn pair(first: &[Record], second: &[Record], what: &'static str) -> Pair {
    Pair {
        first: generate::archive(first),
        second: generate::archive(second),
        what,
    }
}

/// What the first `count` of these records leave.
fn behind(records: &[Record]) -> Playback {
    let mut playback = Playback::FRESH;
    playback
        .replay(&generate::archive(records))
        .expect("a line's records replay");
    playback
}

/// Two lines that go on from a common part.
fn continued(random: &mut Random) -> Pair {
    let common = line(random);
    let start = behind(&common);
    let more = |random: &mut Random| {
        let (size, count) = (size(random), random.below(4));
        let mut records = common.clone();
        records.extend(generate::commits(random, &start, size, count));
        records
    };
    let (first, second) = (more(random), more(random));
    pair(&first, &second, "continued")
}

fn cut(random: &mut Random) -> Pair {
    let all = line(random);
    let part = random.below(all.len() + 1);
    pair(&all, &all[..part], "cut")
}

/// Another record in place of this one, which replays too: the field that is changed, or none.
fn changed(
    random: &mut Random,
    record: &Record,
    before: &Playback,
) -> Option<(Record, &'static str)> {
    let mut other = record.clone();
    let field = random.pick(&FIELDS);
    match field {
        "a read less" => drop(other.reads.pop()?),
        "a write less" => drop(other.writes.pop()?),
        "transaction" => other.transaction = generate::number(random),
        "station" => other.station = random.below(8) as u8,
        "kind" => other.kind = random.below(KINDS as usize) as u8,
        "an address" => {
            let reads = random.one_in(2);
            let list = if reads {
                &mut other.reads
            } else {
                &mut other.writes
            };
            let i = random.below(list.len().max(1));
            let low = if i == 0 {
                0
            } else {
                u16::from(list.get(i - 1)?.0) + 1
            };
            let high = list.get(i + 1).map_or(256, |next| u16::from(next.0));
            let address =
                (low + random.below(usize::from(high - low).max(1)) as u16).min(255) as u8;
            list.get_mut(i)?.0 = address;
            if reads {
                list.get_mut(i)?.1 = before.values[usize::from(address)];
            }
        }
        _ => {
            let i = random.below(other.writes.len().max(1));
            let bit = 1 << random.below(64);
            other.writes.get_mut(i)?.1 ^= bit;
        }
    }
    (other != *record).then_some((other, field))
}

/// One field of one record is another; then the first's own commits behind it, if they still replay, or others.
fn parted(random: &mut Random) -> Pair {
    let all = line(random);
    if all.is_empty() {
        return pair(&all, &all, "empty");
    }
    let at = random.below(all.len());
    let Some((other, field)) = changed(random, &all[at], &behind(&all[..at])) else {
        return pair(&all, &all, "equal");
    };
    let mut second = all[..at].to_vec();
    second.push(other);
    if random.one_in(2) {
        second.extend_from_slice(&all[at + 1..]);
    } else {
        let (size, count) = (size(random), random.below(4));
        let start = behind(&second);
        second.extend(generate::commits(random, &start, size, count));
    }
    pair(&all, &second, field)
}

fn damaged(random: &mut Random) -> Pair {
    let mut pair = match random.below(3) {
        0 => parted(random),
        1 => cut(random),
        _ => continued(random),
    };
    pair.what = "damaged";
    let both = random.one_in(4);
    if random.one_in(2) || both {
        damage(random, &mut pair.first);
    }
    if random.one_in(2) || both {
        damage(random, &mut pair.second);
    }
    // the same damage in both
    if random.one_in(8) {
        pair.second = pair.first.clone();
    }
    pair
}

fn damage(random: &mut Random, archive: &mut Vec<u8>) {
    match random.below(3) {
        0 => archive.truncate(random.below(archive.len() + 1)),
        1 if !archive.is_empty() => generate::change_a_bit(random, archive),
        _ => {
            let length = random.below(60);
            let mut more = random.bytes(length);
            generate::tame(&mut more, random);
            archive.extend(more);
        }
    }
}

pub fn round(random: &mut Random) -> [Pair; 6] {
    let equal = line(random);
    [
        pair(&equal, &equal, "equal"),
        cut(random),
        continued(random),
        parted(random),
        parted(random),
        damaged(random),
    ]
}

/// A pair for the program, now and then of long archives.
pub fn long(random: &mut Random, run: usize) -> Pair {
    if run % 20 != 0 {
        let [.., parted, damaged] = round(random);
        return match run % 5 {
            0 => damaged,
            1 => parted,
            2 => cut(random),
            3 => continued(random),
            _ => round(random).into_iter().next().expect("six"),
        };
    }
    let size = random.pick(&[Size::Small, Size::Large]);
    let first = generate::archive_of_length(random, size, 2_000_000);
    let mut second = first.clone();
    match run / 20 % 4 {
        0 => {}
        1 => second.truncate(second.len() / 2),
        2 => generate::change_a_bit(random, &mut second),
        _ => {
            let mut playback = Playback::FRESH;
            playback.replay(&second).expect("accepted");
            second.extend(generate::archive(&generate::commits(
                random, &playback, size, 1000,
            )));
        }
    }
    Pair {
        first,
        second,
        what: "long",
    }
}
