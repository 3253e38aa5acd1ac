//! What the fees program prints, from docs/LICENCE.md.

use super::Fault;
use crate::archive::Playback;
use crate::licence::{self, Step, Sum, BEYOND, MOST, MOST_STEPS, TARIFF};
use crate::program::Said;
use std::fmt::Write;

/// A tariff file as text: steps, or the line that is wrong, from 1, and what is wrong there.
pub fn tariff(text: &[u8]) -> Result<Vec<Step>, (usize, &'static str)> {
    let mut steps: Vec<Step> = Vec::new();
    let body = text.strip_suffix(b"\n").unwrap_or(text);
    let lines: Vec<&[u8]> = match text {
        [] => Vec::new(),
        _ => body.split(|byte| *byte == b'\n').collect(),
    };
    for (at, line) in lines.iter().enumerate() {
        let step = step(line).ok_or((
            at + 1,
            "not an upper count of 0 to 9223372036854775807, a space and a price of 0 to 4294967295",
        ))?;
        if at == MOST_STEPS {
            return Err((at + 1, "a tariff has at most 16 steps"));
        }
        if steps.last().is_some_and(|last| step.upper <= last.upper) {
            return Err((at + 1, "the upper count is not above the one before"));
        }
        steps.push(step);
    }
    match steps.last() {
        None => Err((1, "there is no step")),
        Some(last) if last.upper != MOST => Err((
            steps.len(),
            "the last upper count is not 9223372036854775807",
        )),
        Some(_) => Ok(steps),
    }
}

fn step(line: &[u8]) -> Option<Step> {
    let space = line.iter().position(|byte| *byte == b' ')?;
    Some(Step {
        upper: number(&line[..space], MOST)?,
        price: number(&line[space + 1..], u64::from(u32::MAX))? as u32,
    })
}

/// Digits alone, with zeros in front or without.
fn number(word: &[u8], most: u64) -> Option<u64> {
    if word.is_empty() || !word.iter().all(u8::is_ascii_digit) {
        return None;
    }
    word.iter().try_fold(0, |number: u64, digit| {
        let number = u128::from(number) * 10 + u128::from(digit - b'0');
        u64::try_from(number).ok().filter(|number| *number <= most)
    })
}

/// All that the program prints for this tariff file, stretch and archive.
pub fn fees(text: &[u8], stretch: (u32, u32), archive: &[u8]) -> Said {
    let said = |output: String, errors: String| Said {
        output: output.into_bytes(),
        errors: errors.into_bytes(),
        status: 0,
    };
    if text.len() > 4095 {
        return said(
            format!("refused {TARIFF}\n"),
            String::from("fees: tariff: the file is longer than 4095 bytes\n"),
        );
    }
    let steps = match tariff(text) {
        Ok(steps) => steps,
        Err((line, words)) => {
            return said(
                format!("refused {TARIFF}\n"),
                format!("fees: tariff, line {line}: {words}\n"),
            )
        }
    };
    let (sums, last) = match licence::sums(archive, stretch) {
        Ok(sums) => sums,
        Err((refusal, last)) => {
            return said(
                format!("refused {} after {last}\n", refusal.number()),
                wrong(archive),
            )
        }
    };
    let (first, end) = stretch;
    if first == 0 {
        return said(
            refused(13),
            String::from("fees: there is no commit 0: the first is 1\n"),
        );
    }
    if end < first {
        let words = "fees: the stretch is backwards: its first commit is behind its last\n";
        return said(refused(13), String::from(words));
    }
    if last < end {
        let words =
            format!("fees: there is no commit {end}: the archive ends behind commit {last}\n");
        return said(refused(13), words);
    }
    said(bills(&steps, &sums), String::new())
}

fn refused(number: u32) -> String {
    format!("refused {number}\n")
}

/// Heading, a line for each address written, and the total.
fn bills(steps: &[Step], sums: &[Sum]) -> String {
    let mut text = String::from("address frames cents\n");
    let (mut charged, mut returned, mut whole) = (0i128, 0i128, true);
    for (address, sum) in sums.iter().enumerate().filter(|(_, sum)| sum.written) {
        match sum.bill(steps) {
            Ok((frames, fee)) => {
                writeln!(text, "{address} {frames} {fee}").expect("a string");
                charged += i128::from(fee.max(0));
                returned -= i128::from(fee.min(0));
            }
            Err(number) => {
                writeln!(text, "{address} refused {number}").expect("a string");
                whole = false;
            }
        }
    }
    let most = i128::from(MOST);
    if whole && charged <= most && returned <= most {
        writeln!(text, "total {}", charged - returned).expect("a string");
    } else {
        writeln!(text, "total refused {BEYOND}").expect("a string");
    }
    text
}

/// The words for the first record that is refused.
fn wrong(archive: &[u8]) -> String {
    let mut playback = Playback::FRESH;
    let mut at = 0;
    while let Ok(view) = playback.record(&archive[at..]) {
        at += view.length();
    }
    let fault = Fault::of(archive, at, &playback).expect("it is refused");
    format!("fees: {fault}\n")
}

/// The last commit before the archive's end or fault.
pub fn commits(archive: &[u8]) -> u32 {
    let mut playback = Playback::FRESH;
    let _ = playback.replay(archive);
    playback.last
}
