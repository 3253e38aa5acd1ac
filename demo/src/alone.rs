//! Heads that are alone on their counters: how many messages a commit takes then, by kind.

use crate::counters::HEADS;
use crate::line::Line;
use crate::owner::{Came, Owner, Step};
use second::line::call::Call;
use second::line::sets::{address, STATIONS};
use second::line::Kind;
use second::random::Random;
use std::io;

/// Commits of each head.
const COMMITS: u64 = 200;
/// The first head's page; each has one, and counters there as many as a frame has.
const PAGE: u8 = 8;
const COUNTERS: u8 = 4;

/// What the heads of a kind came to.
#[derive(Clone, Copy, Debug, PartialEq, Eq)]
pub struct Alone {
    pub kind: Kind,
    pub commits: u64,
    pub messages: u64,
}

impl Alone {
    pub fn of_each_kind(seed: u64) -> Result<[Alone; 3], String> {
        let [locking, validating, keeping] = Kind::ALL.map(|kind| Alone::of(kind, seed));
        Ok([locking?, validating?, keeping?])
    }

    /// A line of its own, with ends that act by chance.
    fn of(kind: Kind, seed: u64) -> Result<Alone, String> {
        let mut random = Random::new(seed);
        let mut line = Line::fresh([kind; STATIONS], io::sink());
        let mut owners: [Owner; HEADS] = std::array::from_fn(|head| Owner::new(head as u8));
        let mut alone = Alone {
            kind,
            commits: 0,
            messages: 0,
        };
        let mut left = [COMMITS; HEADS];
        while let Some(call) = next(&line, &mut owners, &mut left, &mut random) {
            let done = line
                .call(&call)
                .map_err(|fault| format!("`{call}`: {fault}"))?;
            alone.messages += done.sent.len() as u64;
            let Some(station) = call.station() else {
                continue;
            };
            match owners[usize::from(station)].told(done.answer) {
                Came::Further => (),
                Came::Committed(_) => alone.commits += 1,
                Came::Aborted(cause) => return Err(format!("a head alone is aborted: {cause}")),
            }
        }
        Ok(alone)
    }
}

/// What one of the ends that can act does; none when all is done.
fn next(
    line: &Line<io::Sink>,
    owners: &mut [Owner; HEADS],
    left: &mut [u64; HEADS],
    random: &mut Random,
) -> Option<Call> {
    let mut calls = Vec::with_capacity(3 * HEADS);
    for (head, owner) in owners.iter_mut().enumerate() {
        if owner.is_idle() && left[head] > 0 {
            left[head] -= 1;
            owner.start(work(head));
        }
        let (up, down) = line.under_way(head);
        let able = [
            (up, Call::Server(head as u8)),
            (down, Call::Station(head as u8)),
        ];
        calls.extend(
            able.into_iter()
                .filter(|(can, _)| *can)
                .map(|(_, call)| call),
        );
        if !owner.is_idle() && !owner.waits() {
            calls.push(owner.call());
        }
    }
    let count = calls.len();
    (count > 0).then(|| calls.swap_remove(random.below(count)))
}

/// Adds one to each of its counters.
fn work(head: usize) -> Vec<Step> {
    let counters = (0..COUNTERS).map(|object| address(PAGE + head as u8, object));
    let adding = |counter: u8| [Step::Read(counter), Step::Add(counter, 1)];
    let steps = counters.flat_map(adding);
    let begun = std::iter::once(Step::Begin).chain(steps);
    begun.chain([Step::Commit]).collect()
}

#[cfg(test)]
mod tests {
    use super::*;

    /// A page for the first read; then a 2 with its 18 and a 3 with its 21 each time, or the last two alone.
    #[test]
    fn messages_of_heads_alone() {
        let commits = HEADS as u64 * COMMITS;
        let first = 2 * HEADS as u64;
        let expected = [
            (Kind::Locking, first + 4 * commits),
            (Kind::Validating, first + 2 * commits),
            (Kind::Keeping, first + first + 2 * commits),
        ];
        let expected = expected.map(|(kind, messages)| Alone {
            kind,
            commits,
            messages,
        });
        assert_eq!(Alone::of_each_kind(7), Ok(expected));
    }
}
