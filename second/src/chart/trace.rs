//! A script run call by call: who acted, what was sent, and which call took it.

use super::{notes, words};
use crate::line::call::Call;
use crate::line::message::{Down, Field, Up};
use crate::line::places::Place;
use crate::line::sets::STATIONS;
use crate::line::world::{Outcome, Reply, World};
use crate::line::{Answer, Kind};
use std::collections::VecDeque;
use std::fmt::{self, Display, Formatter};

/// A run, as a chart shows it.
#[derive(Clone)]
pub struct Trace {
    /// Comments before the first command.
    pub title: Vec<String>,
    pub kinds: [Kind; STATIONS],
    pub items: Vec<Item>,
    pub messages: Vec<Message>,
}

#[derive(Clone)]
pub enum Item {
    Row(Row),
    /// Comments between two commands.
    Note(Vec<String>),
}

/// One call.
#[derive(Clone)]
pub struct Row {
    pub actor: End,
    pub lines: Vec<Vec<Span>>,
    pub refused: bool,
    /// Messages by their place in the trace.
    pub taken: Option<usize>,
    pub sent: Vec<usize>,
}

#[derive(Clone, Copy, Debug, PartialEq, Eq)]
pub enum End {
    Station(u8),
    Server,
}

/// A piece of a line of text.
#[derive(Clone)]
pub struct Span {
    pub text: String,
    pub tone: Tone,
}

#[derive(Clone, Copy, Debug, PartialEq, Eq)]
pub enum Tone {
    Plain,
    /// What an owner is told.
    Told,
    /// The same, where its transaction ended against its will.
    Aborted,
    Refused,
    /// What a call changed.
    Changed,
}

/// A message on its line.
#[derive(Clone)]
pub struct Message {
    pub station: u8,
    pub up: bool,
    pub words: String,
    /// Item that sent it, none if a call that is not drawn; and item that took it.
    pub sent: Option<usize>,
    pub taken: Option<usize>,
}

impl Message {
    pub fn sender(&self) -> End {
        self.end(self.up)
    }

    pub fn receiver(&self) -> End {
        self.end(!self.up)
    }

    fn end(&self, station: bool) -> End {
        if station {
            End::Station(self.station)
        } else {
            End::Server
        }
    }
}

impl Trace {
    /// The same with each owner's answer on a line of its own.
    pub fn stacked(&self) -> Trace {
        let mut stacked = self.clone();
        for item in &mut stacked.items {
            if let Item::Row(row) = item {
                let spans = row.lines.drain(..).flatten();
                row.lines = spans.map(|span| vec![span]).collect();
            }
        }
        stacked
    }
}

/// A script that cannot be drawn.
#[derive(Debug, PartialEq, Eq)]
pub struct Fault {
    pub line: usize,
    pub what: String,
}

impl Display for Fault {
    fn fmt(&self, f: &mut Formatter<'_>) -> fmt::Result {
        write!(f, "line {}: {}", self.line, self.what)
    }
}

/// What stands before the calls that are drawn, if not all are.
const FROM_HERE: &str = "#>";

/// How many calls stand behind `fresh` and before the mark.
pub fn hidden(script: &str) -> usize {
    let commands = |text: &str| {
        let command = |line: &&str| !line.trim().is_empty() && !line.trim().starts_with('#');
        text.lines().filter(command).count()
    };
    let mark = script.find(FROM_HERE);
    mark.map_or(0, |mark| commands(&script[..mark]).saturating_sub(1))
}

/// Runs a script. Of its first calls so many are not drawn.
pub fn run(script: &str, skipped: usize) -> Result<Trace, Fault> {
    let mut runner = Runner {
        skipped,
        ..Runner::default()
    };
    for (number, line) in script.lines().enumerate() {
        let fault = |what: String| Fault {
            line: number + 1,
            what,
        };
        runner.line(line.trim()).map_err(fault)?;
    }
    let end = script.lines().count();
    runner.finish().ok_or(Fault {
        line: end,
        what: String::from("there is no `fresh`"),
    })
}

/// Messages under way, by their place in the trace; those that calls not drawn have sent have none yet.
type Line = VecDeque<Option<usize>>;

#[derive(Default)]
struct Runner {
    title: Vec<String>,
    /// Calls still to be made and not drawn.
    skipped: usize,
    world: Option<World>,
    items: Vec<Item>,
    messages: Vec<Message>,
    up: [Line; STATIONS],
    down: [Line; STATIONS],
}

impl Runner {
    fn line(&mut self, line: &str) -> Result<(), String> {
        if line.starts_with(FROM_HERE) {
            return Ok(());
        }
        if let Some(comment) = line.strip_prefix('#') {
            self.comment(comment.trim());
            return Ok(());
        }
        if line.is_empty() {
            return Ok(());
        }
        let call = Call::parse(line).ok_or_else(|| format!("`{line}` is no command"))?;
        self.call(&call, line)
    }

    fn comment(&mut self, comment: &str) {
        if self.world.is_none() {
            self.title.push(comment.to_string());
        } else if self.skipped > 0 {
            // a note on what is not drawn
        } else if let Some(Item::Note(lines)) = self.items.last_mut() {
            lines.push(comment.to_string());
        } else {
            self.items.push(Item::Note(vec![comment.to_string()]));
        }
    }

    fn call(&mut self, call: &Call, line: &str) -> Result<(), String> {
        let Some(world) = &mut self.world else {
            return match call {
                Call::Fresh(kinds) => {
                    self.world = Some(World::fresh(*kinds));
                    Ok(())
                }
                _ => Err(String::from("a script begins with `fresh`")),
            };
        };
        if let Call::Fresh(_) = call {
            return Err(String::from("one chart shows one line"));
        }
        // a copy of the line for each call that is not drawn would take long
        let before = (self.skipped == 0).then(|| world.clone());
        match (world.call(call), &before) {
            (Reply::Ready, _) => return Ok(()),
            (Reply::Misplaced, _) => return Err(format!("`{line}` does not fit here")),
            (Reply::Empty, _) => return Err(format!("`{line}` finds no message")),
            (_, None) => self.skip(),
            (Reply::Refused(number), Some(before)) => self.refused(call, before, number as u8),
            (Reply::Accepted(outcome), Some(before)) => self.accepted(call, before, &outcome),
        }
        Ok(())
    }

    /// Counts a call that is not drawn. What is under way behind the last of them comes from above.
    fn skip(&mut self) {
        self.skipped -= 1;
        let Some(world) = self.world.as_ref().filter(|_| self.skipped == 0) else {
            return;
        };
        for station in 0..STATIONS {
            let number = station as u8;
            self.up[station] = (0..world.up_length(number)).map(|_| None).collect();
            self.down[station] = (0..world.down_length(number)).map(|_| None).collect();
        }
    }

    fn refused(&mut self, call: &Call, before: &World, number: u8) {
        let mut line = asked(call, &before.kinds);
        if let (Call::Server(_) | Call::Station(_), Some(bytes)) = (call, before.message_of(call)) {
            let words = words::bytes(bytes, &before.kinds);
            line.push(plain(format!("{} ", short(&words))));
        }
        line.push(Span {
            text: format!("refused {number}"),
            tone: Tone::Refused,
        });
        self.items.push(Item::Row(Row {
            actor: actor(call),
            lines: vec![line],
            refused: true,
            taken: None,
            sent: Vec::new(),
        }));
    }

    fn accepted(&mut self, call: &Call, before: &World, outcome: &Outcome) {
        let here = self.items.len();
        let taken = self.take(call, before);
        if let Some(taken) = taken {
            self.messages[taken].taken = Some(here);
        }
        let up = actor(call) != End::Server;
        let sent: Vec<usize> = outcome
            .sent
            .iter()
            .map(|bytes| self.send(bytes, up, &before.kinds, here))
            .collect();
        let lines = self.lines(call, before, outcome);
        self.items.push(Item::Row(Row {
            actor: actor(call),
            lines,
            refused: false,
            taken,
            sent,
        }));
    }

    /// The message that a call takes from its line; one from above is met only now.
    fn take(&mut self, call: &Call, before: &World) -> Option<usize> {
        let (taken, up) = match call {
            Call::Server(station) => (self.up[*station as usize].pop_front()?, true),
            Call::Station(station) => (self.down[*station as usize].pop_front()?, false),
            _ => return None,
        };
        let bytes = before.message_of(call)?;
        Some(taken.unwrap_or_else(|| self.message(bytes, up, &before.kinds, None)))
    }

    fn send(&mut self, bytes: &[u8], up: bool, kinds: &[Kind; STATIONS], here: usize) -> usize {
        let number = self.message(bytes, up, kinds, Some(here));
        let lines = if up { &mut self.up } else { &mut self.down };
        lines[Field::Station.byte(bytes) as usize].push_back(Some(number));
        number
    }

    fn message(
        &mut self,
        bytes: &[u8],
        up: bool,
        kinds: &[Kind; STATIONS],
        sent: Option<usize>,
    ) -> usize {
        self.messages.push(Message {
            station: Field::Station.byte(bytes),
            up,
            words: words::bytes(bytes, kinds),
            sent,
            taken: None,
        });
        self.messages.len() - 1
    }

    /// The text of a call's box: the owner's call and its answer, then what changed.
    fn lines(&self, call: &Call, before: &World, outcome: &Outcome) -> Vec<Vec<Span>> {
        let mut first = asked(call, &before.kinds);
        if let Some(text) = words::answer(outcome.answer) {
            let tone = match outcome.answer {
                Answer::Aborted(_) => Tone::Aborted,
                _ => Tone::Told,
            };
            first.push(Span { text, tone });
        }
        let mut lines = Vec::new();
        if !first.is_empty() {
            lines.push(first);
        }
        for note in self.changes(call, before, outcome) {
            lines.push(vec![Span {
                text: note,
                tone: Tone::Changed,
            }]);
        }
        lines
    }

    fn changes(&self, call: &Call, before: &World, outcome: &Outcome) -> Vec<String> {
        let Some(after) = &self.world else {
            return Vec::new();
        };
        match actor(call) {
            End::Server => {
                let bytes = before.message_of(call);
                let taken = bytes.and_then(|bytes| Up::decode(bytes, &before.kinds).ok());
                notes::server(&before.server, &after.server, taken.as_ref(), outcome)
            }
            End::Station(number) => {
                let bytes = before.message_of(call);
                let taken = bytes.and_then(|bytes| Down::decode(bytes, number).ok());
                let taken = taken.map(|(_, message)| message);
                let station = number as usize;
                notes::station(
                    &before.stations[station],
                    &after.stations[station],
                    taken.as_ref(),
                    outcome,
                )
            }
        }
    }

    fn finish(self) -> Option<Trace> {
        Some(Trace {
            title: self.title,
            kinds: self.world?.kinds,
            items: self.items,
            messages: self.messages,
        })
    }
}

/// The end at which a call is made.
fn actor(call: &Call) -> End {
    call.station().map_or(End::Server, End::Station)
}

/// What was called, with an arrow behind it; nothing for a step on a line's message.
fn asked(call: &Call, kinds: &[Kind; STATIONS]) -> Vec<Span> {
    match call {
        Call::Server(_) | Call::Station(_) => Vec::new(),
        Call::ServerRaw(bytes) | Call::StationRaw(_, bytes) => {
            vec![plain(format!(
                "raw {} ",
                short(&words::bytes(bytes, kinds))
            ))]
        }
        _ => vec![plain(format!("{} \u{2192} ", words::call(call)))],
    }
}

fn plain(text: String) -> Span {
    Span {
        text,
        tone: Tone::Plain,
    }
}

/// The first two words of a message.
fn short(words: &str) -> String {
    let first: Vec<&str> = words.split(' ').take(2).collect();
    first.join(" ")
}
