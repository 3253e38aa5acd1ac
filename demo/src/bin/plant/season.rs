//! What a season comes to, from what a commit comes to.

use crate::settings::Settings;

/// Commit numbers of an archive, and transaction numbers of a station.
pub const NUMBERS: u64 = u32::MAX as u64;
pub const HOUR: u64 = 3600;
/// Seconds.
const YEAR: u64 = 365 * 24 * HOUR;

pub struct Season {
    pub commits: u64,
    /// Commits in a second.
    pub rate: f64,
}

impl Season {
    /// Of so many commits for each bottle.
    pub fn of(settings: &Settings, commits: f64) -> Season {
        let hourly = settings.bottles as f64 * commits;
        Season {
            commits: (hourly * (settings.hours * settings.days) as f64).round() as u64,
            rate: hourly / HOUR as f64,
        }
    }

    /// Of so much for each commit.
    pub fn sum(&self, each: f64) -> f64 {
        each * self.commits as f64
    }

    /// The part of the numbers that is used, of so many for each commit.
    pub fn of_numbers(&self, each: f64) -> f64 {
        self.sum(each) / NUMBERS as f64
    }

    /// Until the commit numbers are used up, at this rate without a pause.
    pub fn years(&self) -> f64 {
        NUMBERS as f64 / self.rate / YEAR as f64
    }
}

#[cfg(test)]
mod tests {
    use super::*;

    #[test]
    fn twenty_a_second() {
        let season = Season {
            commits: 630_720_000,
            rate: 20.0,
        };
        assert_eq!(season.sum(100.0), 63_072_000_000.0);
        assert_eq!((season.of_numbers(1.0) * 1e4).round(), 1469.0);
        assert_eq!((season.years() * 10.0).round(), 68.0);
    }
}
