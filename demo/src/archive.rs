//! The archive that a shift leaves, played back twice: record by record through the C interface, and by the playback
//! program. Neither keeps more of it than a record.

use second::archive::Playback;
use second::ffi;
use second::line::sets::STATIONS;
use second::numbers::OK;
use second::record::{self, HEADER, LONGEST};
use std::fs::File;
use std::io::{self, BufRead, BufReader, ErrorKind, Read};
use std::process::{Command, Stdio};

/// Plays record behind record, to the end or to the first that is refused; the number of that, else 0.
pub fn play(archive: impl Read) -> io::Result<(Playback, u32)> {
    let mut archive = BufReader::new(archive);
    let mut playback = Playback::FRESH;
    let mut record = Vec::with_capacity(LONGEST);
    loop {
        record.clear();
        read_up_to(&mut archive, HEADER, &mut record)?;
        if record.is_empty() {
            return Ok((playback, OK));
        }
        let length = record::claimed_length(&record).unwrap_or(HEADER);
        read_up_to(&mut archive, length, &mut record)?;
        let number = ffi::playback_record(&mut playback, &record);
        if number != OK {
            return Ok((playback, number));
        }
    }
}

/// Reads until there are so many bytes, or no more.
fn read_up_to(from: &mut impl Read, length: usize, bytes: &mut Vec<u8>) -> io::Result<()> {
    let more = length.saturating_sub(bytes.len());
    from.take(more as u64).read_to_end(bytes)?;
    Ok(())
}

const HEADING: &str = "commit station transaction reads writes";

/// What the playback program printed.
#[derive(Debug, Default, PartialEq, Eq)]
pub struct Printed {
    /// Commits by station.
    pub commits: [u64; STATIONS],
    pub last_line: String,
}

/// Runs the playback program on the file.
pub fn printed(program: &str, file: File) -> io::Result<Printed> {
    let mut child = Command::new(program)
        .stdin(file)
        .stdout(Stdio::piped())
        .spawn()?;
    let printed = parsed(BufReader::new(child.stdout.take().expect("piped")));
    child.wait()?;
    printed
}

/// The heading, a line of its numbers for each commit, and a last line.
fn parsed(text: impl BufRead) -> io::Result<Printed> {
    let mut printed = Printed::default();
    let mut lines = text.lines();
    match lines.next().transpose()? {
        Some(line) if line == HEADING => (),
        line => return Err(odd(line.unwrap_or_default())),
    }
    for line in lines {
        let line = line?;
        match commit_of(&line) {
            Some(station) => printed.commits[station] += 1,
            None if printed.last_line.is_empty() => printed.last_line = line,
            None => return Err(odd(line)),
        }
    }
    Ok(printed)
}

fn odd(line: String) -> io::Error {
    io::Error::new(ErrorKind::InvalidData, format!("it prints `{line}`"))
}

/// The station of a commit's line.
fn commit_of(line: &str) -> Option<usize> {
    let numbers: Result<Vec<u64>, _> = line.split(' ').map(str::parse).collect();
    match numbers.ok()?[..] {
        [_, station, _, _, _] => Some(station as usize).filter(|station| *station < STATIONS),
        _ => None,
    }
}

#[cfg(test)]
mod tests {
    use super::*;
    use crate::shift::worked;

    const SHORT: u32 = 12;

    fn archive(seed: u64, frames: u64) -> Vec<u8> {
        let mut bytes = Vec::new();
        worked(seed, frames, &mut bytes);
        bytes
    }

    #[test]
    fn the_same_seed_gives_the_same_archive() {
        assert_eq!(archive(1, 300), archive(1, 300));
        assert_ne!(archive(1, 300), archive(2, 300));
    }

    /// What a host that is killed leaves: whole records, and at most one that is cut.
    #[test]
    fn a_cut_archive_plays_to_its_last_whole_record() {
        let bytes = archive(3, 40);
        let (mut whole, mut end) = (0, 0);
        for cut in 0..=bytes.len() {
            let next = record::claimed_length(&bytes[end..]).map(|length| end + length);
            if next == Some(cut) {
                (whole, end) = (whole + 1, cut);
            }
            let (playback, number) = play(&bytes[..cut]).unwrap();
            let expected = if cut == end { OK } else { SHORT };
            assert_eq!((playback.last, number), (whole, expected), "cut at {cut}");
        }
        assert_eq!(end, bytes.len());
    }

    #[test]
    fn what_playback_prints() {
        let of = |text: &str| parsed(format!("{HEADING}\n{text}").as_bytes());
        let printed = of("1 0 1 1 1\n2 7 1 1 0\n3 7 2 0 0\nend 3\n").unwrap();
        assert_eq!(printed.commits, [1, 0, 0, 0, 0, 0, 0, 2]);
        assert_eq!(printed.last_line, "end 3");
        assert_eq!(
            of("refused 12 after 0\n").unwrap().last_line,
            "refused 12 after 0"
        );
        assert!(of("end 3\nmore\n").is_err());
        assert!(parsed(&b""[..]).is_err());
        assert!(parsed(&b"end 0\n"[..]).is_err());
    }
}
