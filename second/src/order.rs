//! Which of two archives is the longer truth (document 02, wish 14).

use crate::archive::Playback;
use crate::record::Record;
use crate::Refusal;

/// What two accepted archives are to each other.
#[derive(Clone, Copy, Debug, PartialEq, Eq, PartialOrd, Ord)]
pub enum Order {
    Same,
    FirstEarly,
    SecondEarly,
    /// They part at this commit.
    Part(u32),
}

impl Order {
    /// The two numbers that C is given.
    pub fn told(self) -> (u32, u32) {
        match self {
            Order::Same => (0, 0),
            Order::FirstEarly => (1, 0),
            Order::SecondEarly => (2, 0),
            Order::Part(commit) => (3, commit),
        }
    }
}

/// The records of an archive, each with where it starts; a refused archive gives its number.
pub fn records(archive: &[u8]) -> Result<Vec<(usize, Record)>, Refusal> {
    let mut playback = Playback::FRESH;
    let (mut records, mut at) = (Vec::new(), 0);
    while at < archive.len() {
        let length = playback.record(&archive[at..])?.length();
        records.push((at, Record::decode(&archive[at..])?));
        at += length;
    }
    Ok(records)
}

/// Record by record. The first archive is checked first.
pub fn order(first: &[u8], second: &[u8]) -> Result<Order, Refusal> {
    let (first, second) = (records(first)?, records(second)?);
    let parting = first.iter().zip(&second).find(|(a, b)| a.1 != b.1);
    Ok(match parting {
        Some((a, _)) => Order::Part(a.1.commit),
        None if first.len() < second.len() => Order::FirstEarly,
        None if second.len() < first.len() => Order::SecondEarly,
        None => Order::Same,
    })
}

/// The same, by bytes: the commit in which the first byte stands that is another.
pub fn order_of_bytes(first: &[u8], second: &[u8]) -> Result<Order, Refusal> {
    let starts: Vec<usize> = records(first)?.into_iter().map(|(at, _)| at).collect();
    records(second)?;
    let same = first.iter().zip(second).take_while(|(a, b)| a == b).count();
    Ok(match (same == first.len(), same == second.len()) {
        (true, true) => Order::Same,
        (true, false) => Order::FirstEarly,
        (false, true) => Order::SecondEarly,
        (false, false) => Order::Part(starts.iter().filter(|at| **at <= same).count() as u32),
    })
}
