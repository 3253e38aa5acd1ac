//! The server's turns by shares: whose message the server takes next.

use second::ffi::turns::turn_next;
use second::line::sets::STATIONS;
use second::numbers::OK;
use second::turns::Line;

pub type Shares = [u8; STATIONS];

/// Eight shares of 1 to 4 with commas between them.
pub fn shares_of(text: &str) -> Option<Shares> {
    let shares: Vec<u8> = text
        .split(',')
        .map_while(|word| word.parse().ok())
        .collect();
    let shares: Shares = shares.try_into().ok()?;
    let all =
        text.split(',').count() == STATIONS && shares.iter().all(|share| (1..=4).contains(share));
    all.then_some(shares)
}

pub struct Turns {
    lines: [Line; STATIONS],
    waited: [u64; STATIONS],
    /// Turns that each line was given, and the most that one of its messages took to come first and be taken.
    pub given: [u64; STATIONS],
    pub longest: [u64; STATIONS],
}

impl Turns {
    pub fn new(shares: Shares) -> Turns {
        Turns {
            lines: shares.map(|share| Line {
                share,
                given: 0,
                waiting: 0,
            }),
            waited: [0; STATIONS],
            given: [0; STATIONS],
            longest: [0; STATIONS],
        }
    }

    pub fn shares(&self) -> Shares {
        self.lines.map(|line| line.share)
    }

    /// The line that is given the next turn, where these have a message under way.
    pub fn next(&mut self, under_way: [bool; STATIONS]) -> Result<usize, String> {
        for ((line, waited), waits) in self.lines.iter_mut().zip(&mut self.waited).zip(under_way) {
            line.waiting = waits.into();
            *waited += u64::from(waits);
        }
        let mut next = 0;
        match turn_next(&mut self.lines, &mut next) {
            OK => (),
            number => return Err(format!("a turn is refused with {number}")),
        }
        self.given[next] += 1;
        self.longest[next] = self.longest[next].max(self.waited[next]);
        self.waited[next] = 0;
        Ok(next)
    }
}

#[cfg(test)]
mod tests {
    use super::*;

    #[test]
    fn shares_are_eight_of_1_to_4() {
        assert_eq!(shares_of("1,2,3,4,1,2,3,4"), Some([1, 2, 3, 4, 1, 2, 3, 4]));
        for wrong in [
            "",
            "1",
            "1,1,1,1,1,1,1",
            "1,1,1,1,1,1,1,1,1",
            "1,1,1,1,1,1,1,0",
            "1,1,1,1,1,1,1,5",
            "1,1,1,1,1,1,1,x",
            "1,1,1,1,1,1,1,1,x",
        ] {
            assert_eq!(shares_of(wrong), None, "{wrong}");
        }
    }

    #[test]
    fn turns_are_shared() {
        let mut turns = Turns::new([4, 1, 1, 1, 1, 1, 1, 2]);
        for _ in 0..12 * 100 {
            turns.next([true; STATIONS]).unwrap();
        }
        assert_eq!(turns.given, [400, 100, 100, 100, 100, 100, 100, 200]);
        assert!(turns.longest.iter().all(|waited| *waited <= 57));
        assert_eq!(
            turns.next([false; STATIONS]).unwrap_err(),
            "a turn is refused with 20"
        );
    }
}
