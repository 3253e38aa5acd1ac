//! Scripts: a random line's calls, with commands in between that are damaged or do not fit.

use crate::Reached;
use second::line::call::{Call, Driver};
use second::line::crossing::Crossing;
use second::line::world::Reply;
use second::random::Random;

/// One line's commands and the replies of this implementation.
pub struct Script {
    pub seed: u64,
    pub commands: Vec<String>,
    pub replies: Vec<String>,
    driver: Driver,
}

/// Commands that are none, whatever the line.
const MALFORMED: [&str; 20] = [
    "",
    " ",
    "begin",
    "begin 8",
    "begin -1",
    "begin 0 0",
    "read 0 256",
    "read 0 +1",
    "write 0 0 18446744073709551616",
    "writes 0 1 3 5",
    "writes 0 1 0 5",
    "writes 0 1 256 5",
    "writes 0 4294967296 1 5",
    "purge 0 4294967296",
    "fresh 0101010",
    "fresh 01010103",
    "numbers 0 0 0 0 0 0 0 0",
    "serverraw 010",
    "stationraw 0 xy",
    "Begin 0",
];

impl Script {
    pub fn new(seed: u64, reached: &mut Reached) -> Script {
        let mut random = Random::new(seed ^ 0x7E87_5C21);
        let mut crossing = Crossing::new(seed, random.pick(&[30, 300, 300, 1_000]));
        let mut script = Script {
            seed,
            commands: Vec::new(),
            replies: Vec::new(),
            driver: Driver::default(),
        };
        reached.counts.runs += 1;
        script.call(&Call::Fresh(crossing.kinds), reached);
        if let Some((last, latest)) = crossing.numbers {
            script.call(&Call::Numbers(last, latest), reached);
        }
        while let Some(call) = script.driver.world().and_then(|world| crossing.next(world)) {
            let reply = script.call(&call, reached);
            crossing.saw(&call, &reply);
            if random.one_in(12) {
                let command = damaged(&mut random, &call);
                script.command(command, reached);
            }
        }
        script
    }

    fn call(&mut self, call: &Call, reached: &mut Reached) -> Reply {
        self.command(call.to_string(), reached)
    }

    fn taken(&self, call: Option<&Call>) -> Option<Vec<u8>> {
        let message = self.driver.world()?.message_of(call?)?;
        Some(message.to_vec())
    }

    fn command(&mut self, command: String, reached: &mut Reached) -> Reply {
        let call = Call::parse(&command);
        let taken = self.taken(call.as_ref());
        let latest = self.driver.world().map(|world| world.server.latest());
        let reply = self.driver.answer(call.as_ref());
        reached.commands += 1;
        match &reply {
            Reply::Misplaced => reached.errors += 1,
            Reply::Empty => reached.empty += 1,
            _ => (),
        }
        if let (Some(call), Some(world)) = (&call, self.driver.world()) {
            // without a line before there was nothing to meet
            let latest = latest.unwrap_or_else(|| world.server.latest());
            let counts = &mut reached.counts;
            counts.note(call, taken.as_deref(), &reply, world, latest);
        }
        self.commands.push(command);
        self.replies.push(reply.to_string());
        reply
    }
}

/// A command like this one with a character changed, left out or put in, or one that is none at all.
fn damaged(random: &mut Random, like: &Call) -> String {
    let mut text = like.to_string().into_bytes();
    // what is changed far behind is only a byte of a raw message
    let at = random.below(text.len().min(24));
    match random.below(6) {
        0 => text[at] = b' ' + random.below(95) as u8,
        1 => drop(text.remove(at)),
        2 => text.insert(at, b' ' + random.below(95) as u8),
        3 => text.truncate(at),
        4 => return String::from("numbers 1 2 3 4 5 6 7 8 9"),
        _ => return random.pick(&MALFORMED).to_string(),
    }
    String::from_utf8_lossy(&text).into_owned()
}
