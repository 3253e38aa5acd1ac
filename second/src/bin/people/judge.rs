//! Runs the program on a case, and compares what it says with what docs/PLAYBACK.md asks for.

use crate::cases::{Case, Way};
use crate::tally::Tallies;
use second::generate::{self, Size};
use second::people::{self, Asked, Play, Stop};
use second::program::{self, Said};
use second::random::Random;
use second::show::{from_difference, hex};
use second::text;
use std::fs::{self, File, OpenOptions};
use std::io::{self, Seek, Write};
use std::time::Duration;
use std::{env, process};

/// A program that needs nothing more has so long to end.
const PATIENCE: Duration = Duration::from_secs(20);
/// Bytes that the program may have read and not needed: its buffer, as docs/DECISIONS.md has it.
const AHEAD: u64 = 1_310_720;
/// Bytes of an archive whose text takes several writes.
const LONG_TEXT: usize = 2_000_000;

pub struct Judge<'a> {
    path: &'a str,
    /// Whether it is the command, which has exit statuses.
    statuses: bool,
    file: File,
    /// Where an archive is put that is named.
    name: String,
    pub tallies: Tallies,
}

/// What was asked for, of what, and what must come of it.
struct Expected<'a> {
    case: &'a Case,
    /// None where the arguments are not understood.
    asked: Option<Asked>,
    play: Play,
    said: Option<Said>,
}

impl Judge<'_> {
    pub fn new(path: &str, statuses: bool) -> io::Result<Judge<'_>> {
        // a program that cannot be run is no difference
        program::printed(path, &[], 1)?;
        Ok(Judge {
            path,
            statuses,
            file: nameless()?,
            name: format!(
                "{}",
                env::temp_dir()
                    .join(format!("people-{}", process::id()))
                    .display()
            ),
            tallies: Tallies::default(),
        })
    }

    /// Runs the case; answers what is wrong, if something is.
    pub fn run(&mut self, case: &Case) -> Result<(), String> {
        let expected = Expected::of(case);
        let said = self.said(&expected)?;
        expected.compare(&said, self.statuses)?;
        let Expected { asked, play, .. } = &expected;
        self.tallies
            .count(case, expected.way(), asked.as_ref(), play);
        Ok(())
    }

    /// A folder cannot be read: nothing may look like the archive's end, and the reason is told.
    pub fn unreadable(&self) -> Result<(), String> {
        let plays = [&[][..], &["--totals"], &["--at", "1"]];
        for (arguments, output) in plays.into_iter().zip([text::HEADING, "", ""]) {
            let folder = File::open(env::temp_dir());
            let said = folder.and_then(|folder| program::read(self.path, arguments, &folder));
            let said = said.map_err(|error| error.to_string())?;
            let once = said.errors.iter().filter(|byte| **byte == b'\n').count() == 1;
            let fits =
                said.output == output.as_bytes() && once && self.ended(&said, people::FAILED);
            if !fits {
                return Err(format!("a folder, {arguments:?}: {said:?}"));
            }
        }
        Ok(())
    }

    fn ended(&self, said: &Said, status: i32) -> bool {
        !self.statuses || said.status == status
    }

    /// A disk that is full: the first write that fails is told once, and is the last.
    pub fn unwritable(&mut self) -> Result<(), String> {
        let archive = generate::archive_of_length(&mut Random::new(3), Size::Tiny, LONG_TEXT);
        let wrong = |error: io::Error| error.to_string();
        for arguments in [
            &[][..],
            &["--totals"],
            &["--at", "9"],
            &["--counter", "8"],
            &["--record", "9"],
            &["--csv"],
            &["--help"],
        ] {
            self.put(&archive).map_err(wrong)?;
            let full = OpenOptions::new()
                .write(true)
                .open("/dev/full")
                .map_err(wrong)?;
            let said = program::into(self.path, arguments, &self.file, full).map_err(wrong)?;
            let line = b"playback: standard output: No space left on device\n";
            if said.errors != line || !self.ended(&said, people::FAILED) {
                return Err(format!("a full disk, {arguments:?}: {said:?}"));
            }
        }
        Ok(())
    }

    /// Whoever reads the output goes away: the command says that it failed.
    pub fn unread(&mut self) -> Result<(), String> {
        if !self.statuses {
            return Ok(());
        }
        let archive = generate::archive_of_length(&mut Random::new(3), Size::Tiny, LONG_TEXT);
        let wrong = |error: io::Error| error.to_string();
        self.put(&archive).map_err(wrong)?;
        match program::unread(self.path, &self.file).map_err(wrong)? {
            Some(people::FAILED) => Ok(()),
            status => Err(format!("a broken pipe: status {status:?}")),
        }
    }

    /// The archive as a file.
    fn put(&mut self, archive: &[u8]) -> io::Result<()> {
        self.file.set_len(0)?;
        self.file.rewind()?;
        self.file.write_all(archive)?;
        self.file.rewind()
    }

    fn said(&mut self, expected: &Expected) -> Result<Said, String> {
        let case = expected.case;
        let arguments: Vec<&str> = case.arguments.iter().map(String::as_str).collect();
        let said = match expected.way() {
            Way::Held => self.held(&arguments, expected),
            Way::File => self.file(&arguments, expected),
            Way::Named => self.named(&arguments, case),
            Way::Pieces(piece) => program::piped(self.path, &arguments, &case.archive, piece),
        };
        said.map_err(|error| error.to_string())
    }

    /// Through a pipe that stays open behind what is needed.
    fn held(&self, arguments: &[&str], expected: &Expected) -> io::Result<Said> {
        let needed = expected.needed().unwrap_or(0);
        let bytes = &expected.case.archive[..needed];
        let said = program::held(self.path, arguments, bytes, PATIENCE)?;
        said.ok_or(io::Error::other("waits for more than it needs"))
    }

    /// As a file, of which the program reads no more than it may.
    fn file(&mut self, arguments: &[&str], expected: &Expected) -> io::Result<Said> {
        self.put(&expected.case.archive)?;
        let said = program::read(self.path, arguments, &self.file)?;
        let read = self.file.stream_position()?;
        let ahead = if expected.plays() { AHEAD } else { 0 };
        match expected.needed().map(|needed| needed as u64 + ahead) {
            Some(most) if read > most => {
                let why = format!("has read {read} bytes where {most} are enough");
                Err(io::Error::other(why))
            }
            _ => Ok(said),
        }
    }
}

impl Judge<'_> {
    /// As a file whose name is the last word, with nothing on standard input.
    fn named(&self, arguments: &[&str], case: &Case) -> io::Result<Said> {
        fs::write(&self.name, &case.archive)?;
        let words = [arguments, &[&self.name]].concat();
        let said = program::piped(self.path, &words, &[], 1);
        fs::remove_file(&self.name)?;
        said
    }
}

impl Expected<'_> {
    fn of(case: &Case) -> Expected<'_> {
        let arguments: Vec<&str> = case.arguments.iter().map(String::as_str).collect();
        let asked = Asked::by(&arguments).ok();
        let play = Play::of(&case.archive, asked.as_ref().unwrap_or(&Asked::COMMITS));
        let said = people::said(&arguments, &case.archive);
        Expected {
            case,
            asked,
            play,
            said,
        }
    }

    /// A pipe can stay open where the archive's end is not needed.
    fn way(&self) -> Way {
        match self.case.way {
            Way::Held if self.needed().is_none() => Way::Pieces(65_536),
            way => way,
        }
    }

    /// Bytes behind which the answer is certain, where the archive's end need not be known.
    fn needed(&self) -> Option<usize> {
        match self.play.stop {
            _ if !self.plays() => Some(0),
            Stop::Reached => Some(self.play.end),
            Stop::End | Stop::Fault(_) => None,
        }
    }

    fn plays(&self) -> bool {
        self.asked.as_ref().is_some_and(Asked::plays)
    }

    fn compare(&self, said: &Said, statuses: bool) -> Result<(), String> {
        let Some(expected) = &self.said else {
            return helps(said);
        };
        if statuses && said.status != expected.status {
            let (one, other) = (expected.status, said.status);
            return Err(format!("exit status: expected {one}, is {other}"));
        }
        for (stream, one, other) in [
            ("standard output", &expected.output, &said.output),
            ("standard error", &expected.errors, &said.errors),
        ] {
            if one != other {
                let [one, other] = from_difference([one, other]);
                return Err(format!("{stream}\nexpected: {one}\nprinted:  {other}"));
            }
        }
        Ok(())
    }
}

/// What `--help` prints names each argument.
fn helps(said: &Said) -> Result<(), String> {
    let text = String::from_utf8_lossy(&said.output);
    if said.output.starts_with(b"playback ") {
        return Ok(());
    }
    let names = [
        "playback",
        "--totals",
        "--at N",
        "--counter A",
        "--record N",
        "--from N",
        "--to M",
        "--csv",
        "--help",
        "--version",
    ];
    let missing = names.into_iter().find(|name| !text.contains(name));
    match missing {
        Some(name) => Err(format!("the help does not name {name}")),
        None if !text.ends_with('\n') => Err("the help's last line has no end".to_string()),
        None if !said.errors.is_empty() => Err("the help is on standard error".to_string()),
        None => Ok(()),
    }
}

/// A file for archives that is gone when the program ends, however it ends.
pub fn nameless() -> io::Result<File> {
    let name = env::temp_dir().join(format!("people-{}.archive", process::id()));
    let mut options = OpenOptions::new();
    let file = options
        .read(true)
        .write(true)
        .create_new(true)
        .open(&name)?;
    fs::remove_file(name)?;
    Ok(file)
}

impl Case {
    /// For a report.
    pub fn show(&self) -> String {
        let Case { arguments, way, .. } = self;
        format!(
            "arguments: {arguments:?}, {way:?}\narchive: {}",
            hex(&self.archive)
        )
    }
}
