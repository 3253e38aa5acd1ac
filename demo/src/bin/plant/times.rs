//! What depends on the machine: the time of the server's steps.

use crate::run::{Run, KINDS};
use second::ffi::server;
use second::line::served::Results;
use second::line::server::state::LENGTH;
use second::numbers::OK;
use std::hint::black_box;
use std::time::{Duration, Instant};

const ROUNDS: usize = 5;
/// Steps that are timed together, so few that they are seldom interrupted.
const PIECE: usize = 500;
/// Steps that are timed with emptied caches.
const COLD: usize = 100;
/// Bytes, more than a processor caches.
const CACHES: usize = 128 << 20;
const CACHE_LINE: usize = 64;

pub struct Times {
    /// Seconds for all steps of the run, one behind the other.
    pub warm: f64,
    /// The same if each step found the caches empty.
    pub cold: f64,
}

impl Times {
    pub fn of(run: &Run) -> Times {
        let steps = run.taken.len();
        let every = (steps / COLD).max(1);
        let mut caches = vec![1; CACHES];
        let warm = fastest(|| warm(&run.taken));
        let cold = fastest(|| cold(&run.taken, every, &mut caches));
        Times {
            warm: warm.iter().sum::<Duration>().as_secs_f64(),
            cold: cold.iter().sum::<Duration>().as_secs_f64() * steps as f64 / cold.len() as f64,
        }
    }
}

/// Of each piece the fastest of some rounds: other work on the machine is not counted.
fn fastest(round: impl FnMut() -> Vec<Duration>) -> Vec<Duration> {
    let rounds = std::iter::repeat_with(round).take(ROUNDS);
    let faster = |one: Vec<Duration>, other: Vec<Duration>| {
        let pairs = one.into_iter().zip(other);
        pairs.map(|(one, other)| one.min(other)).collect()
    };
    rounds.reduce(faster).unwrap_or_default()
}

/// The steps, a piece at a time.
fn warm(messages: &[Vec<u8>]) -> Vec<Duration> {
    let mut server = Server::fresh();
    let mut piece = |piece: &[Vec<u8>]| timed(|| piece.iter().for_each(|one| server.takes(one)));
    messages.chunks(PIECE).map(&mut piece).collect()
}

/// Every so many steps one, with emptied caches.
fn cold(messages: &[Vec<u8>], every: usize, caches: &mut [u8]) -> Vec<Duration> {
    let mut server = Server::fresh();
    let first = |part: &[Vec<u8>]| {
        let (first, others) = part.split_first().expect("a part has a message");
        empty(caches);
        let time = timed(|| server.takes(first));
        others.iter().for_each(|one| server.takes(one));
        time
    };
    messages.chunks(every).map(first).collect()
}

/// Fills the caches with something else.
fn empty(caches: &mut [u8]) {
    for line in caches.chunks_mut(CACHE_LINE) {
        line[0] = line[0].wrapping_add(1);
    }
    black_box(caches);
}

fn timed(work: impl FnOnce()) -> Duration {
    let start = Instant::now();
    work();
    start.elapsed()
}

/// A server that takes the run's messages again, from a fresh state.
struct Server {
    state: Vec<u8>,
    results: Results,
}

impl Server {
    fn fresh() -> Server {
        let mut state = vec![0; LENGTH];
        let number = server::fresh(&KINDS.map(|kind| kind as u8), &mut state);
        assert_eq!(number, OK, "a fresh server");
        Server {
            state,
            results: Results::default(),
        }
    }

    fn takes(&mut self, message: &[u8]) {
        let number = server::step(message, &mut self.results.lent(&mut self.state));
        assert_eq!(number, OK, "a message that the run's server has taken");
    }
}
