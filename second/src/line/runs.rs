//! Runs: a crossing to its end, the draining, the checks; and a failing run made short.

use super::call::{kinds, script, Call};
use super::checks::{Failure, Watch, Watched};
use super::counts::Counts;
use super::crossing::Crossing;
use super::draining::{Draining, Driven};
use super::shorten;
use super::world::{Reply, World};
use crate::random::Random;
use std::panic::{self, AssertUnwindSafe};

/// A failing run: how it failed, and every call that was made.
pub struct Failed {
    pub seed: u64,
    pub failure: Failure,
    pub calls: Vec<Call>,
}

/// Panics are caught where they can be, and count as failures.
const PANIC: &str = "no panic";

/// About so many moments of a line are drained from.
const COPIES: usize = 2;

/// A line under watch, and every call made on it.
struct Made<'a, 'b> {
    watched: &'a mut Watched<'b>,
    made: &'a mut Vec<Call>,
}

impl Driven for Made<'_, '_> {
    type Failure = Failure;

    fn world(&self) -> &World {
        &self.watched.world
    }

    fn make(&mut self, call: Call) -> Result<Reply, Failure> {
        make(self.watched, call, self.made)
    }

    fn rests(&mut self) -> Result<(), Failure> {
        match self.watched.honest() {
            true => self.watched.at_rest(),
            false => Ok(()),
        }
    }
}

/// The run of one seed.
pub fn run(seed: u64, calls: usize, counts: &mut Counts) -> Result<(), Failed> {
    run_of(Crossing::new(seed, calls), seed, counts).map(drop)
}

/// The run of a crossing; all calls made, its draining among them.
pub fn run_of(mut crossing: Crossing, seed: u64, counts: &mut Counts) -> Result<Vec<Call>, Failed> {
    let mut made = vec![Call::Fresh(crossing.kinds)];
    match caught(|| random_calls(&mut crossing, seed, &mut made, counts)) {
        Ok(()) => Ok(made),
        Err(failure) => Err(Failed {
            seed,
            failure,
            calls: made,
        }),
    }
}

fn random_calls(
    crossing: &mut Crossing,
    seed: u64,
    made: &mut Vec<Call>,
    counts: &mut Counts,
) -> Result<(), Failure> {
    let watch = watch(crossing.damages(), seed);
    let mut watched = Watched::new(crossing.kinds, watch, counts);
    if let Some((last, latest)) = crossing.numbers {
        make(&mut watched, Call::Numbers(last, latest), made)?;
    }
    let mut luck = Random::new(seed ^ 0x0D4A_1D3D);
    let copy_in = crossing.calls() / COPIES + 1;
    while let Some(call) = crossing.next(&watched.world) {
        let reply = make(&mut watched, call, made)?;
        crossing.saw(&made[made.len() - 1], &reply);
        if watched.honest() && luck.one_in(copy_in) {
            drain_a_copy(&mut watched, luck.number(), made)?;
        }
    }
    drain(&mut watched, seed, made)
}

/// States are compared in all runs with raw messages, and in some others.
fn watch(damages: bool, seed: u64) -> Watch {
    if damages || seed.is_multiple_of(16) {
        Watch::Compare
    } else {
        Watch::Plain
    }
}

fn make(watched: &mut Watched, call: Call, made: &mut Vec<Call>) -> Result<Reply, Failure> {
    made.push(call);
    watched.make(&made[made.len() - 1])
}

fn caught(run: impl FnOnce() -> Result<(), Failure>) -> Result<(), Failure> {
    panic::catch_unwind(AssertUnwindSafe(run)).unwrap_or_else(|cause| {
        let text = cause.downcast_ref::<String>().cloned();
        let text = text.or_else(|| cause.downcast_ref::<&str>().map(|text| text.to_string()));
        Err(Failure {
            check: PANIC,
            detail: text.unwrap_or_default(),
        })
    })
}

/// Owners stop at some moment, and the line goes on as if they had not; of what failed all calls stay.
fn drain_a_copy(watched: &mut Watched, seed: u64, made: &mut Vec<Call>) -> Result<(), Failure> {
    let before = made.len();
    drain(&mut watched.copy(), seed, made)?;
    made.truncate(before);
    Ok(())
}

/// Owners begin nothing more: all messages are delivered; some transactions are ended one after the other, then all in
/// rounds.
fn drain(watched: &mut Watched, seed: u64, made: &mut Vec<Call>) -> Result<(), Failure> {
    let mut random = Random::new(seed ^ 0x5D12_A1B5);
    let one_by_one = random.pick(&[0, 0, 1, 2]);
    let honest = watched.honest();
    let mut line = Made { watched, made };
    let mut draining = Draining::new(&mut line, &mut random);
    // only after raw messages can a line be stuck
    let empty = draining.deliver_all()?;
    if !empty || !honest {
        return Ok(());
    }
    for _ in 0..one_by_one {
        draining.end_one()?;
    }
    let drained = draining.end_all()?;
    watched.counts.note_drained(&drained);
    watched.at_end()
}

/// Calls made again without their draining, which is drawn anew; all calls made are put into `made`.
fn replay(calls: &[Call], seed: u64, made: &mut Vec<Call>) -> Result<(), Failure> {
    let kinds = kinds(calls);
    made.push(Call::Fresh(kinds));
    let mut counts = Counts::default();
    caught(|| {
        let mut watched = Watched::new(kinds, Watch::Compare, &mut counts);
        for call in &calls[1..] {
            make(&mut watched, call.clone(), made)?;
        }
        drain(&mut watched, seed, made)
    })
}

impl Failed {
    /// The same failure with as few calls as were found, its draining among them.
    pub fn shortened(&self) -> Failed {
        let head = &self.calls[..1];
        let fails = |rest: &[Call]| {
            let calls = [head, rest].concat();
            self.fails_so(&calls, &mut Vec::new())
        };
        let rest = shorten::shorten(&self.calls[1..], fails);
        let mut calls = Vec::new();
        let result = replay(&[head, &rest].concat(), self.seed, &mut calls);
        match result {
            Err(failure) => Failed {
                seed: self.seed,
                failure,
                calls,
            },
            Ok(()) => Failed {
                seed: self.seed,
                failure: self.failure.clone(),
                calls: self.calls.clone(),
            },
        }
    }

    fn fails_so(&self, calls: &[Call], made: &mut Vec<Call>) -> bool {
        matches!(replay(calls, self.seed, made), Err(failure) if failure.check == self.failure.check)
    }

    /// The calls as commands.
    pub fn script(&self) -> String {
        script(&self.calls)
    }
}
