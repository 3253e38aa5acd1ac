//! What the program that compares two archives prints, from docs/COMPARE.md.

use super::Fault;
use crate::archive::{Playback, ADDRESSES};
use crate::order::{order, records, Order};
use crate::program::Said;
use crate::record::Record;
use std::fmt::Write;

/// Exit statuses.
pub const SAME: i32 = 0;
pub const OTHER: i32 = 1;
pub const REFUSED: i32 = 2;

/// All that the program prints for these two archives.
pub fn compared(first: &[u8], second: &[u8]) -> Said {
    for (name, archive) in [("first", first), ("second", second)] {
        if let Some(said) = refused(name, archive) {
            return said;
        }
    }
    let order = order(first, second).expect("both are accepted");
    let (a, b) = (
        records(first).expect("accepted"),
        records(second).expect("accepted"),
    );
    let common = a.iter().zip(&b).take_while(|(x, y)| x == y).count();
    let mut text = String::new();
    match order {
        Order::Same => writeln!(
            text,
            "the archives are the same: {}, {} bytes",
            commits(a.len()),
            first.len()
        ),
        Order::FirstEarly => early(&mut text, "first", "second", a.len(), b.len()),
        Order::SecondEarly => early(&mut text, "second", "first", b.len(), a.len()),
        Order::Part(commit) => {
            let byte = first.iter().zip(second).take_while(|(x, y)| x == y).count();
            writeln!(
                text,
                "the archives part at commit {commit}, byte {byte}: {}\nbehind commit {common} the first has {} more, the second {} more",
                difference(&a[common].1, &b[common].1),
                commits(a.len() - common),
                commits(b.len() - common)
            )
        }
    }
    .expect("a string");
    if order != Order::Same {
        counters(&mut text, first, second);
    }
    Said {
        output: text.into_bytes(),
        errors: Vec::new(),
        status: if order == Order::Same { SAME } else { OTHER },
    }
}

fn commits(count: usize) -> String {
    match count {
        1 => String::from("1 commit"),
        _ => format!("{count} commits"),
    }
}

fn early(
    text: &mut String,
    short: &str,
    long: &str,
    ends: usize,
    others: usize,
) -> std::fmt::Result {
    writeln!(
        text,
        "the {short} archive is an early part of the {long}: it ends behind commit {ends}, and the other has {} more",
        commits(others - ends)
    )
}

/// The first field, in the order of the record's bytes, that is another.
fn difference(a: &Record, b: &Record) -> String {
    let numbers = [
        ("its reads are", a.reads.len(), b.reads.len()),
        ("its writes are", a.writes.len(), b.writes.len()),
        (
            "its transaction is",
            a.transaction as usize,
            b.transaction as usize,
        ),
        (
            "its station is",
            usize::from(a.station),
            usize::from(b.station),
        ),
        (
            "its station's kind is",
            usize::from(a.kind),
            usize::from(b.kind),
        ),
    ];
    for (words, x, y) in numbers {
        if x != y {
            return format!("{words} {x} in the first and {y} in the second");
        }
    }
    let listed = |record: &Record| -> Vec<(&str, u8, u64)> {
        let reads = record.reads.iter().map(|(a, v)| ("read", *a, *v));
        let writes = record.writes.iter().map(|(a, v)| ("write", *a, *v));
        reads.chain(writes).collect()
    };
    let pairs: Vec<_> = listed(a).into_iter().zip(listed(b)).collect();
    if let Some(((what, x, _), (_, y, _))) = pairs.iter().find(|(p, q)| p.1 != q.1) {
        return format!("it {what}s counter {x} in the first and {y} in the second");
    }
    let ((what, counter, x), (_, _, y)) = pairs.iter().find(|(p, q)| p.2 != q.2).expect("another");
    let how = if *what == "read" { "read" } else { "written" };
    format!("counter {counter} is {how} as {x} in the first and {y} in the second")
}

/// A line for each counter that ends otherwise.
fn counters(text: &mut String, first: &[u8], second: &[u8]) {
    let end = |archive| {
        let mut playback = Playback::FRESH;
        playback.replay(archive).expect("accepted");
        playback.values
    };
    let (a, b) = (end(first), end(second));
    let before = text.len();
    for counter in (0..ADDRESSES).filter(|i| a[*i] != b[*i]) {
        writeln!(
            text,
            "counter {counter} ends as {} in the first and {} in the second",
            a[counter], b[counter]
        )
        .expect("a string");
    }
    if text.len() == before {
        text.push_str("every counter ends the same\n");
    }
}

/// What is said where an archive is refused.
fn refused(name: &str, archive: &[u8]) -> Option<Said> {
    let mut playback = Playback::FRESH;
    let mut at = 0;
    while at < archive.len() {
        match playback.record(&archive[at..]) {
            Ok(view) => at += view.length(),
            Err(refusal) => {
                let fault = Fault::of(archive, at, &playback).expect("it is refused");
                return Some(Said {
                    output: format!(
                        "the {name} archive: refused {} after {}\n",
                        refusal.number(),
                        playback.last
                    )
                    .into_bytes(),
                    errors: format!("compare: {fault}\n").into_bytes(),
                    status: REFUSED,
                });
            }
        }
    }
    None
}
