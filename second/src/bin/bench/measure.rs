//! Times of jobs that take turns, and what to make of them.

use std::fmt;
use std::time::Instant;

/// Seconds in each round: the second implementation, the proved library, a plain copy; of commits SQLite in its place.
pub type Times = [Vec<f64>; 3];

/// How long a job takes.
pub fn seconds(job: impl FnOnce()) -> f64 {
    let start = Instant::now();
    job();
    start.elapsed().as_secs_f64()
}

/// Times three jobs round by round. `settle` runs before each, so that all meet the caches in the same state.
pub fn time(rounds: usize, settle: &dyn Fn(), jobs: [&mut dyn FnMut(); 3]) -> Times {
    let mut times = Times::default();
    // the first round warms up and is dropped
    for round in 0..=rounds {
        for turn in 0..jobs.len() {
            let job = (round + turn) % jobs.len();
            settle();
            let seconds = seconds(&mut *jobs[job]);
            if round > 0 {
                times[job].push(seconds);
            }
        }
    }
    times
}

/// Megabytes a second, by the median time of each job.
pub fn rates(megabytes: f64, times: &Times) -> [f64; 3] {
    times
        .each_ref()
        .map(|times| megabytes / Spread::of(times).median)
}

/// Nanoseconds a call, by the median time of each job.
pub fn nanoseconds(calls: usize, times: &Times) -> [f64; 3] {
    times
        .each_ref()
        .map(|times| Spread::of(times).median / calls as f64 * 1e9)
}

/// The proved library's time over another job's, in the same round.
pub fn proved_over(times: &Times, job: Job) -> Spread {
    let other = match job {
        Job::Second => &times[0],
        Job::Copy | Job::Sqlite => &times[2],
    };
    ratios(&times[1], other)
}

/// One job's time over another's, round by round.
pub fn ratios(one: &[f64], other: &[f64]) -> Spread {
    let ratios: Vec<f64> = one.iter().zip(other).map(|(a, b)| a / b).collect();
    Spread::of(&ratios)
}

#[derive(Clone, Copy)]
pub enum Job {
    Second,
    Copy,
    Sqlite,
}

/// The median and the middle half.
pub struct Spread {
    low: f64,
    pub median: f64,
    high: f64,
}

impl Spread {
    pub fn of(numbers: &[f64]) -> Spread {
        let mut sorted = numbers.to_vec();
        sorted.sort_by(f64::total_cmp);
        let at = |quarter: usize| sorted[(sorted.len() - 1) * quarter / 4];
        Spread {
            low: at(1),
            median: at(2),
            high: at(3),
        }
    }
}

impl fmt::Display for Spread {
    fn fmt(&self, f: &mut fmt::Formatter) -> fmt::Result {
        write!(
            f,
            "{:.2} ({:.2} to {:.2})",
            self.median, self.low, self.high
        )
    }
}
