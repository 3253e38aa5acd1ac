//! The calls that are timed, each behind a script that leads to it.

pub mod server;
pub mod stations;

use second::line::call::Call;
use second::line::message::Field;
use second::line::places::Place;
use second::line::scripts;
use second::line::world::World;
use second::line::Kind;
use second::numbers::OK;

/// A call at a station or at the server.
pub struct Work {
    pub name: &'static str,
    /// The kind of the message that it takes.
    pub takes: Option<u8>,
    pub script: String,
    /// In the script's language.
    pub call: String,
    /// The number that the server answers, and the kinds of what it sends.
    pub number: u32,
    pub sends: Vec<u8>,
}

impl Work {
    /// The line behind the script, and the call; it takes the message that the table says.
    pub fn prepared(&self) -> (World, Call) {
        let mut world = World::fresh([Kind::Locking; 8]);
        for call in scripts::calls(&self.script) {
            world.call(&call);
        }
        let mut calls = scripts::calls(&self.call).into_iter();
        let (Some(call), None) = (calls.next(), calls.next()) else {
            panic!("{}: one call is timed", self.name)
        };
        let kind = world
            .message_of(&call)
            .map(|message| Field::Kind.byte(message));
        assert_eq!(kind, self.takes, "{}", self.name);
        (world, call)
    }
}

/// Locking 0 and 2, validating 1.
const FRESH: &str = "fresh 01000000; ";
const BEGUN: &str = "begin 0; ";
/// 8 is read, so page 1 cached, by 0, by 1, by 2.
const READ_8: &str = "begin 0; read 0 8; server 0; station 0; ";
const VALIDATING_READ_8: &str = "begin 1; read 1 8; server 1; station 1; ";
const OTHER_READ_8: &str = "begin 2; read 2 8; server 2; station 2; ";
const OTHER_READ_9: &str = "begin 2; read 2 9; server 2; station 2; ";
/// 0 asks to write 8; with the answer it has page 1 whole.
const WRITE_SENT: &str = "begin 0; write 0 8 5; server 0; ";
const WHOLE: &str = "begin 0; write 0 8 5; server 0; station 0; ";
/// 2 has page 1 in use, so 0 gets a lock on 9 alone.
const LOCKED_9: &str = "begin 0; write 0 9 5; server 0; station 2; server 2; station 0; ";
/// Two reads and a write.
const SMALL: &str =
    "begin 0; read 0 8; server 0; station 0; read 0 9; write 0 8 5; server 0; station 0; ";
const COMMIT_SENT: &str = "commit 0; server 0; ";
/// 2 answers a 20.
const ANSWERED: &str = "station 2; server 2; ";
/// 0 and 2 want to write what both have read: 2 is the younger, and keeps 0's callback.
const CYCLE: &str = "write 0 8 5; server 0; station 2; server 2; write 2 8 6; server 2; ";

fn work(name: &'static str, takes: Option<u8>, call: &str, scripts: &[&str]) -> Work {
    Work {
        name,
        takes,
        script: scripts.concat(),
        call: String::from(call),
        number: OK,
        sends: Vec::new(),
    }
}
