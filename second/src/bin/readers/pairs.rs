//! Pairs of archives: alike but for what the counts reader hides, and alike but for something that it shows.

use crate::judge::Judge;
use second::archive::{Playback, ADDRESSES};
use second::counts;
use second::ffi::counts as proved;
use second::generate;
use second::random::Random;
use second::record::{Record, KINDS};

/// The same commits and writes, with stations, kinds, transaction numbers and reads drawn anew.
fn hide(random: &mut Random, records: &[Record]) -> Vec<Record> {
    let mut values = [0; ADDRESSES];
    let mut hidden = Vec::new();
    for record in records {
        let count = random.pick(&[0, 1, 2, 3, 17, 256]);
        let reads = generate::addresses(random, count);
        hidden.push(Record {
            reads: reads
                .into_iter()
                .map(|address| (address, values[usize::from(address)]))
                .collect(),
            writes: record.writes.clone(),
            commit: record.commit,
            transaction: generate::number(random),
            station: random.below(8) as u8,
            kind: random.below(KINDS as usize) as u8,
        });
        for &(address, value) in &record.writes {
            values[usize::from(address)] = value;
        }
    }
    hidden
}

/// What the counts reader tells of a commit, in an output that is noise to it.
fn told(archive: &[u8], commit: u32) -> (u32, Vec<u8>) {
    let mut out = vec![0x5A; counts::LONGEST];
    let number = proved::counts_at(archive, commit, &mut out);
    (number, out)
}

/// The counts file that the proved reader writes record by record.
fn file(archive: &[u8], records: &[Record]) -> Vec<u8> {
    let mut playback = Playback::FRESH;
    let mut file = Vec::new();
    let mut at = 0;
    for record in records {
        let mut out = vec![0xA5; counts::LONGEST];
        proved::counts_record(&archive[at..], &mut playback, &mut out);
        file.extend(&out[..counts::HEADER + 9 * record.writes.len()]);
        at += record.encode().len();
    }
    file
}

pub fn hidden(judge: &mut Judge, random: &mut Random, records: &[Record]) {
    let others = hide(random, records);
    let [one, other] = [generate::archive(records), generate::archive(&others)];
    for commit in 0..=records.len() as u32 + 1 {
        if told(&one, commit) != told(&other, commit) {
            judge.fail("what a pair's counts reader tells", &other, commit);
        }
    }
    let files = [file(&one, records), file(&other, &others)];
    if files[0] != files[1] || files[0] != counts::file_of(&one).0 {
        judge.fail("a pair's counts file", &other, 0);
    }
    judge.hidden += 1;
}

/// One write of one commit has another value, another address, or is not there.
pub fn shown(judge: &mut Judge, random: &mut Random, records: &[Record]) {
    let mut others = records.to_vec();
    let Some(record) = (!others.is_empty()).then(|| {
        let place = random.below(others.len());
        &mut others[place]
    }) else {
        return;
    };
    let commit = record.commit;
    match record.writes.len() {
        0 => record.writes.push((random.byte(), 0)),
        count => {
            let i = random.below(count);
            match random.below(3) {
                0 => record.writes[i].1 ^= 1 << random.below(64),
                1 if count < ADDRESSES => {
                    let free = (0..=255).find(|a| record.writes.iter().all(|(b, _)| a != b));
                    let value = record.writes[i].1;
                    record.writes[i] = (free.unwrap_or(0), value);
                    record.writes.sort();
                }
                _ => {
                    record.writes.remove(i);
                }
            }
        }
    }
    let others = hide(random, &others);
    let [one, other] = [generate::archive(records), generate::archive(&others)];
    if told(&one, commit) == told(&other, commit) || file(&one, records) == file(&other, &others) {
        judge.fail("a shown field is not seen: nothing", &other, commit);
    }
    judge.shown += 1;
}
