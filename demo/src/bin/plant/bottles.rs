//! Bottles: when they pass, who sees them, and which of the 256 counters they belong to.

use demo::counters::Counts;
use demo::owner::Step;
use second::line::sets::{OBJECTS, PAGES, STATIONS};
use second::line::LIMIT;
use second::random::Random;

/// Counters that a bottle adds one to.
pub const COUNTERS: usize = 5;
/// Bottles whose counters fit into one transaction, whichever they are.
pub const GATHERED: usize = LIMIT / COUNTERS;
/// Pages of a station's own; the others are everybody's.
const OWN: usize = 3;
const SHARED: usize = PAGES - OWN * STATIONS;

pub struct Bottle {
    /// Microseconds from the start.
    pub seen: u64,
    /// Addresses, rising.
    pub counters: [u8; COUNTERS],
}

impl Bottle {
    /// The line's count of bottles, its verdict beside it, its sort on another shared page, its station's own count and
    /// one more of its station's.
    pub fn by_chance(seen: u64, station: usize, random: &mut Random) -> Bottle {
        let own = (SHARED + OWN * station) * OBJECTS;
        let counters = [
            0,
            1 + random.below(OBJECTS - 1),
            OBJECTS + random.below((SHARED - 1) * OBJECTS),
            own,
            own + 1 + random.below(OWN * OBJECTS - 1),
        ];
        Bottle {
            seen,
            counters: counters.map(|address| address as u8),
        }
    }
}

/// One transaction for some bottles: each counter is read, then written with as many more.
pub fn work(bottles: &[Bottle]) -> Vec<Step> {
    let mut counts = Counts::new();
    for address in bottles.iter().flat_map(|bottle| bottle.counters) {
        *counts.entry(address).or_default() += 1;
    }
    let adding = |(address, more)| [Step::Read(address), Step::Add(address, more)];
    let mut steps = vec![Step::Begin];
    steps.extend(counts.into_iter().flat_map(adding));
    steps.push(Step::Commit);
    steps
}

#[cfg(test)]
mod tests {
    use super::*;
    use second::line::sets::ADDRESSES;

    #[test]
    fn every_counter_is_somebodys() {
        let mut random = Random::new(1);
        let mut met = [false; ADDRESSES];
        for number in 0..40_000 {
            let bottle = Bottle::by_chance(0, number % STATIONS, &mut random);
            assert!(bottle.counters.is_sorted_by(|a, b| a < b));
            for address in bottle.counters {
                met[usize::from(address)] = true;
            }
        }
        assert_eq!(met, [true; ADDRESSES]);
    }
}
