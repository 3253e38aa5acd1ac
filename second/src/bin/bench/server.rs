//! The server's step: the second implementation, the proved library, a plain copy of the state.

use crate::desk::Desk;
use crate::measure::{seconds, Times};
use crate::works::Work;
use second::ffi::server as proved;
use second::line::call::Call;
use second::line::crossing::Crossing;
use second::line::message;
use second::line::places::Place;
use second::line::served::Results;
use second::line::server::state;
use second::line::server::Server;
use second::line::world::{Reply, World};
use second::line::Kind;
use second::numbers::OK;
use std::hint::black_box;

/// Steps of a timed turn, each on a state of its own: so few that all stay in the second-level cache.
pub const STEPS: usize = 8;

pub struct Bench {
    message: Vec<u8>,
    server: Server,
    state: Vec<u8>,
}

/// Validity of the bytes, then the step on the server, its messages and records encoded.
#[inline(never)]
fn second_step(message: &[u8], bytes: &[u8], server: &mut Server) -> u32 {
    match state::valid(black_box(bytes)) {
        true => black_box(server.step(message)).map_or_else(|n| n as u32, |_| OK),
        false => 1,
    }
}

impl Bench {
    pub fn new(work: &Work) -> Bench {
        let (world, call) = work.prepared();
        let bench = Bench {
            message: world.message_of(&call).expect("a message").to_vec(),
            state: state::encode(&world.server),
            server: world.server,
        };
        bench.assert_same(work);
        bench
    }

    /// Both do the same work, and send what the table says.
    fn assert_same(&self, work: &Work) {
        let [mut proved_state, mut second_state] = [self.state.clone(), self.state.clone()];
        let [mut given, mut expected] = [Results::default(), Results::default()];
        let number = proved::step(&self.message, &mut given.lent(&mut proved_state));
        let mut server = self.server.clone();
        let mut lent = expected.lent(&mut second_state);
        let expected_number = lent.step(&self.message, &mut server);
        assert_eq!([expected_number, number], [work.number; 2], "{}", work.name);
        let same = proved_state == second_state && given == expected;
        assert!(same, "{}: results differ", work.name);
        let sent: Vec<u8> = given
            .messages
            .chunks(message::LENGTH)
            .map(|message| message::Field::Kind.byte(message))
            .collect();
        let sent = &sent[..given.served[0] as usize];
        assert_eq!(sent, &work.sends[..], "{}: what is sent", work.name);
    }

    pub fn time(&self, rounds: usize) -> Times {
        let mut results = Results::default();
        Desk::new(&self.server, &self.state, STEPS).time(
            rounds,
            |bytes, server| {
                black_box(second_step(&self.message, bytes, server));
            },
            |state| {
                black_box(proved::step(&self.message, &mut results.lent(state)));
            },
        )
    }
}

/// The messages that a line of eight stations brings to its server, in order.
pub struct Mixed {
    messages: Vec<Vec<u8>>,
    kinds: [Kind; 8],
    /// A state of that line, for the second implementation's check.
    state: Vec<u8>,
    pub commits: usize,
}

impl Mixed {
    /// Of all kinds and with sets; or plain, without keeping stations and sets.
    pub fn new(seed: u64, steps: usize, plain: bool) -> Mixed {
        let mut crossing = match plain {
            true => Crossing::of_eight_plain(seed, usize::MAX),
            false => Crossing::of_eight(seed, usize::MAX),
        };
        let mut world = World::fresh(crossing.kinds);
        let mut messages = Vec::with_capacity(steps);
        while messages.len() < steps {
            let call = crossing.next(&world).expect("calls without end");
            let message = world.message_of(&call).map(<[u8]>::to_vec);
            let reply = world.call(&call);
            crossing.saw(&call, &reply);
            if let (Call::Server(_), Some(message), Reply::Accepted(_)) = (call, message, reply) {
                messages.push(message);
            }
        }
        Mixed {
            messages,
            kinds: world.kinds,
            state: state::encode(&world.server),
            commits: world.archive.len(),
        }
    }

    /// The list in parts, each timed by itself; a round goes through all of it from a fresh state. Seconds in each round
    /// by part: the second implementation, the proved library.
    pub fn time(&self, rounds: usize, parts: usize) -> Vec<[Vec<f64>; 2]> {
        let mut times = vec![<[Vec<f64>; 2]>::default(); parts];
        // the first round warms up and is dropped
        for round in 0..=rounds {
            let mut run = Run::new(self.kinds);
            let messages = self.messages.chunks(self.messages.len() / parts);
            for (messages, times) in messages.zip(&mut times) {
                let seconds = run.both(messages, &self.state);
                if round > 0 {
                    times[0].push(seconds[0]);
                    times[1].push(seconds[1]);
                }
            }
            run.assert_same();
        }
        times
    }
}

/// Both sides on their way through the list.
struct Run {
    server: Server,
    state: Vec<u8>,
    results: Results,
}

impl Run {
    fn new(kinds: [Kind; 8]) -> Run {
        let mut state = vec![0; state::LENGTH];
        let number = proved::fresh(&kinds.map(|kind| kind as u8), &mut state);
        assert_eq!(number, OK);
        Run {
            server: Server::fresh(kinds, 0, [0; 8]),
            state,
            results: Results::default(),
        }
    }

    fn both(&mut self, messages: &[Vec<u8>], checked: &[u8]) -> [f64; 2] {
        let second = seconds(|| {
            for message in messages {
                assert_eq!(second_step(message, checked, &mut self.server), OK);
            }
        });
        let proved = seconds(|| {
            for message in messages {
                let lent = &mut self.results.lent(&mut self.state);
                assert_eq!(proved::step(message, lent), OK);
            }
        });
        [second, proved]
    }

    fn assert_same(&self) {
        let decoded = state::decode(&self.state);
        assert!(
            decoded.as_ref() == Some(&self.server),
            "mixed line: states differ"
        );
    }
}
