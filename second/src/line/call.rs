//! Calls and replies as text: a command a line, exactly one reply line each.

use super::server::Server;
use super::sets::{rising, ObjectSet, OBJECTS, STATIONS};
use super::station::Station;
use super::world::{Outcome, Reply, ServerEnd, StationEnd, World};
use super::{Answer, Kind};
use std::fmt::{self, Display, Formatter, Write};
use std::io::{self, BufRead};

/// One call on a line.
#[derive(Clone, Debug, PartialEq, Eq)]
pub enum Call {
    Fresh([Kind; STATIONS]),
    Numbers(u32, [u32; STATIONS]),
    Begin(u8),
    Read(u8, u8),
    Write(u8, u8, u64),
    /// Page, set and a value for each object; those outside the set are 0.
    WriteSet(u8, u32, ObjectSet, [u64; OBJECTS]),
    Commit(u8),
    Abort(u8),
    Purge(u8, u32),
    Server(u8),
    Station(u8),
    ServerRaw(Vec<u8>),
    StationRaw(u8, Vec<u8>),
}

impl Call {
    /// None for a malformed command.
    pub fn parse(line: &str) -> Option<Call> {
        let words: Vec<&str> = line.split_ascii_whitespace().collect();
        let (name, arguments) = words.split_first()?;
        Some(match (*name, arguments) {
            ("fresh", [kinds]) => Call::Fresh(kinds_of(kinds)?),
            ("numbers", [last, latest @ ..]) => {
                Call::Numbers(number(last)?, latest_numbers(latest)?)
            }
            ("begin", [s]) => Call::Begin(station(s)?),
            ("read", [s, a]) => Call::Read(station(s)?, number(a)?),
            ("write", [s, a, v]) => Call::Write(station(s)?, number(a)?, number(v)?),
            ("writes", [s, page, set, values @ ..]) => {
                let set = number(set)?;
                Call::WriteSet(station(s)?, number(page)?, set, values_of(set, values)?)
            }
            ("commit", [s]) => Call::Commit(station(s)?),
            ("abort", [s]) => Call::Abort(station(s)?),
            ("purge", [s, page]) => Call::Purge(station(s)?, number(page)?),
            ("server", [s]) => Call::Server(station(s)?),
            ("station", [s]) => Call::Station(station(s)?),
            ("serverraw", [hex]) => Call::ServerRaw(bytes_of(hex)?),
            ("stationraw", [s, hex]) => Call::StationRaw(station(s)?, bytes_of(hex)?),
            _ => return None,
        })
    }

    /// The station at which the call is made; none for one made at the server.
    pub fn station(&self) -> Option<u8> {
        match self {
            Call::Begin(station)
            | Call::Read(station, _)
            | Call::Write(station, _, _)
            | Call::WriteSet(station, ..)
            | Call::Commit(station)
            | Call::Abort(station)
            | Call::Purge(station, _)
            | Call::Station(station)
            | Call::StationRaw(station, _) => Some(*station),
            Call::Server(_) | Call::ServerRaw(_) | Call::Fresh(_) | Call::Numbers(..) => None,
        }
    }
}

fn kinds_of(digits: &str) -> Option<[Kind; STATIONS]> {
    let kind = |digit: char| Kind::of(digit.to_digit(10)?);
    let kinds: Option<Vec<Kind>> = digits.chars().map(kind).collect();
    kinds?.try_into().ok()
}

/// A number in decimal digits, within its type.
fn number<T: std::str::FromStr>(word: &str) -> Option<T> {
    let digits = word.bytes().all(|byte| byte.is_ascii_digit());
    word.parse().ok().filter(|_| digits)
}

fn station(word: &str) -> Option<u8> {
    number(word).filter(|station| usize::from(*station) < STATIONS)
}

fn latest_numbers(words: &[&str]) -> Option<[u32; STATIONS]> {
    let latest: Option<Vec<u32>> = words.iter().map(|word| number(word)).collect();
    latest?.try_into().ok()
}

/// "one value for each bit of SET, objects rising"
fn values_of(set: ObjectSet, words: &[&str]) -> Option<[u64; OBJECTS]> {
    let mut values = [0; OBJECTS];
    let objects: Vec<u8> = rising(set).collect();
    if objects.len() != words.len() {
        return None;
    }
    for (object, word) in objects.into_iter().zip(words) {
        values[object as usize] = number(word)?;
    }
    Some(values)
}

fn bytes_of(hex: &str) -> Option<Vec<u8>> {
    if hex == "-" {
        return Some(Vec::new());
    }
    let digits: Option<Vec<u32>> = hex.chars().map(|digit| digit.to_digit(16)).collect();
    let digits = digits.filter(|digits| digits.len() % 2 == 0)?;
    let byte = |pair: &[u32]| (pair[0] * 16 + pair[1]) as u8;
    Some(digits.chunks_exact(2).map(byte).collect())
}

fn hex(bytes: &[u8]) -> String {
    const DIGITS: &[u8; 16] = b"0123456789abcdef";
    let mut text = String::with_capacity(2 * bytes.len());
    for byte in bytes {
        text.push(char::from(DIGITS[usize::from(byte >> 4)]));
        text.push(char::from(DIGITS[usize::from(byte & 15)]));
    }
    text
}

fn hex_or_none(bytes: &[u8]) -> String {
    if bytes.is_empty() {
        return String::from("-");
    }
    hex(bytes)
}

impl Display for Call {
    fn fmt(&self, f: &mut Formatter<'_>) -> fmt::Result {
        match self {
            Call::Fresh(kinds) => {
                f.write_str("fresh ")?;
                kinds
                    .iter()
                    .try_for_each(|kind| write!(f, "{}", *kind as u8))
            }
            Call::Numbers(last, latest) => {
                write!(f, "numbers {last}")?;
                latest.iter().try_for_each(|number| write!(f, " {number}"))
            }
            Call::Begin(s) => write!(f, "begin {s}"),
            Call::Read(s, address) => write!(f, "read {s} {address}"),
            Call::Write(s, address, value) => write!(f, "write {s} {address} {value}"),
            Call::WriteSet(s, page, set, values) => {
                write!(f, "writes {s} {page} {set}")?;
                rising(*set).try_for_each(|object| write!(f, " {}", values[object as usize]))
            }
            Call::Commit(s) => write!(f, "commit {s}"),
            Call::Abort(s) => write!(f, "abort {s}"),
            Call::Purge(s, page) => write!(f, "purge {s} {page}"),
            Call::Server(s) => write!(f, "server {s}"),
            Call::Station(s) => write!(f, "station {s}"),
            Call::ServerRaw(bytes) => write!(f, "serverraw {}", hex_or_none(bytes)),
            Call::StationRaw(s, bytes) => write!(f, "stationraw {s} {}", hex_or_none(bytes)),
        }
    }
}

impl Display for Reply {
    fn fmt(&self, f: &mut Formatter<'_>) -> fmt::Result {
        match self {
            Reply::Ready => f.write_str("ok"),
            Reply::Misplaced => f.write_str("error"),
            Reply::Empty => f.write_str("empty"),
            Reply::Refused(number) => write!(f, "refused {}", *number as u8),
            Reply::Accepted(outcome) => outcome.fmt(f),
        }
    }
}

impl Display for Outcome {
    fn fmt(&self, f: &mut Formatter<'_>) -> fmt::Result {
        write!(
            f,
            "ok {} msgs {} recs {}",
            self.answer,
            list(&self.sent),
            list(&self.records)
        )
    }
}

fn list(strings: &[Vec<u8>]) -> String {
    if strings.is_empty() {
        return String::from("-");
    }
    let strings: Vec<String> = strings.iter().map(|bytes| hex(bytes)).collect();
    strings.join(",")
}

impl Display for Answer {
    fn fmt(&self, f: &mut Formatter<'_>) -> fmt::Result {
        match self {
            Answer::Begun(transaction) => write!(f, "begun {transaction}"),
            Answer::Value(value) => write!(f, "value {value}"),
            Answer::Waits => f.write_str("waits"),
            Answer::Written => f.write_str("written"),
            Answer::Committed(commit) => write!(f, "committed {commit}"),
            Answer::Dropped => f.write_str("aborted"),
            Answer::Aborted(cause) => write!(f, "aborted {}", *cause as u8),
            Answer::Purged => f.write_str("purged"),
            Answer::Nothing => f.write_str("none"),
        }
    }
}

/// A line driven by commands; there is none before the first `fresh`.
pub struct Driver<S = Server, T = Station> {
    world: Option<World<S, T>>,
}

/// Of this implementation's ends.
impl Default for Driver {
    fn default() -> Driver {
        Driver::new()
    }
}

impl<S: ServerEnd, T: StationEnd> Driver<S, T> {
    pub fn new() -> Driver<S, T> {
        Driver { world: None }
    }

    /// A command a line, a reply line each.
    pub fn serve(mut self, commands: impl BufRead, mut replies: impl io::Write) -> io::Result<()> {
        for command in commands.split(b'\n') {
            let reply = self.reply(&String::from_utf8_lossy(&command?));
            writeln!(replies, "{reply}")?;
            replies.flush()?;
        }
        Ok(())
    }

    /// The line; none before the first `fresh`.
    pub fn world(&self) -> Option<&World<S, T>> {
        self.world.as_ref()
    }

    /// The reply to one command, without its line end.
    pub fn reply(&mut self, command: &str) -> String {
        self.answer(Call::parse(command).as_ref()).to_string()
    }

    /// The reply to one call; none is a malformed command.
    pub fn answer(&mut self, call: Option<&Call>) -> Reply {
        match (call, &mut self.world) {
            (Some(Call::Fresh(kinds)), world) => {
                *world = Some(World::with_ends(*kinds));
                Reply::Ready
            }
            (Some(call), Some(world)) => world.call(call),
            _ => Reply::Misplaced,
        }
    }
}

/// The kinds that the first of these calls says; all locking if it says none.
pub fn kinds(calls: &[Call]) -> [Kind; STATIONS] {
    match calls.first() {
        Some(Call::Fresh(kinds)) => *kinds,
        _ => [Kind::Locking; STATIONS],
    }
}

/// Calls as commands, a line each.
pub fn script(calls: &[Call]) -> String {
    calls.iter().fold(String::new(), |mut text, call| {
        let _ = writeln!(text, "{call}");
        text
    })
}
