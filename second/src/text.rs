//! The text that playback prints for an archive.

use crate::archive::Playback;
use crate::record::Header;
use crate::Refusal;

pub const HEADING: &str = "commit station transaction reads writes\n";
/// Its words.
pub const COLUMNS: [&str; 5] = ["commit", "station", "transaction", "reads", "writes"];

/// Heading, a line for each commit, then how it ended.
pub fn playback(archive: &[u8]) -> String {
    let mut text = HEADING.as_bytes().to_vec();
    let mut playback = Playback::FRESH;
    let mut rest = archive;
    let ending = loop {
        if rest.is_empty() {
            break ending(Ok(()), playback.last);
        }
        match playback.record(rest) {
            Ok(view) => {
                push_line(&mut text, &view.header);
                rest = &rest[view.length()..];
            }
            Err(refusal) => break ending(Err(refusal), playback.last),
        }
    };
    text.extend(ending.bytes());
    String::from_utf8(text).expect("digits, letters and spaces")
}

/// How a play ended behind commit `last`.
pub fn ending(outcome: Result<(), Refusal>, last: u32) -> String {
    match outcome {
        Ok(()) => format!("end {last}\n"),
        Err(refusal) => format!("refused {} after {last}\n", refusal.number()),
    }
}

fn push_line(text: &mut Vec<u8>, header: &Header) {
    push_number(text, header.commit.into(), b' ');
    push_number(text, header.station.into(), b' ');
    push_number(text, header.transaction.into(), b' ');
    push_number(text, header.reads.into(), b' ');
    push_number(text, header.writes.into(), b'\n');
}

/// A number in decimal. By hand: `write!` would take most of a long archive's time.
pub fn push_number(text: &mut Vec<u8>, mut number: u64, end: u8) {
    let mut digits = [end; 21];
    let mut at = digits.len() - 1;
    loop {
        at -= 1;
        digits[at] = b'0' + (number % 10) as u8;
        number /= 10;
        if number == 0 {
            break;
        }
    }
    text.extend_from_slice(&digits[at..]);
}
