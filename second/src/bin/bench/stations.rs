//! One call of a station: the second implementation, the proved library, a plain copy of the state.

use crate::desk::Desk;
use crate::measure::Times;
use crate::works::Work;
use second::ffi::stations as proved;
use second::line::lent::{Operation, Results};
use second::line::station::state;
use second::line::station::Station;
use second::numbers;
use std::hint::black_box;

/// Calls of a timed turn, each on a state of its own: so few that all stay in the second-level cache.
pub const CALLS: usize = 32;

pub struct Bench {
    operation: Operation,
    station: Station,
    state: Vec<u8>,
}

impl Bench {
    pub fn new(work: &Work) -> Bench {
        let (world, call) = work.prepared();
        let number = call.station().expect("a call at a station");
        let station = world.stations[number as usize].clone();
        let bench = Bench {
            operation: Operation::of(&call, &world).expect("a message is there"),
            state: state::encode(&station),
            station,
        };
        bench.assert_same(work.name);
        bench
    }

    /// Both do the same work.
    fn assert_same(&self, name: &str) {
        let [mut proved_state, mut second_state] = [self.state.clone(), self.state.clone()];
        let [mut given, mut expected] = [Results::default(), Results::default()];
        let number = proved::call(&self.operation, &mut given.lent(&mut proved_state));
        let mut station = self.station.clone();
        let mut lent = expected.lent(&mut second_state);
        assert_eq!(
            lent.call(&self.operation, &mut station),
            number,
            "{name}: number"
        );
        let same = proved_state == second_state && given == expected;
        assert!(same, "{name}: results differ");
    }

    /// The second implementation: validity of the bytes, then the call on the station, its messages encoded.
    pub fn time(&self, rounds: usize) -> Times {
        let mut results = Results::default();
        Desk::new(&self.station, &self.state, CALLS).time(
            rounds,
            |bytes, station| {
                let number = match state::valid(bytes) {
                    true => black_box(self.operation.on(station))
                        .map_or_else(|n| n as u32, |_| numbers::OK),
                    false => 1,
                };
                black_box(number);
            },
            |state| {
                black_box(proved::call(&self.operation, &mut results.lent(state)));
            },
        )
    }
}
