//! The counting licence of document 02, wish 7, in numbers of 128 bits: tariff, chargeable frames of an address, fee.

use crate::archive::{Playback, ADDRESSES};
use crate::record::View;
use crate::Refusal;

/// Numbers of document 02 beside those of `Refusal`.
pub const TARIFF: u32 = 17;
pub const BEYOND: u32 = 18;
/// Bytes of a step in a table: upper count, price.
pub const STEP: usize = 12;
pub const MOST_STEPS: usize = 16;
/// The last step's upper count, and the highest value and fee.
pub const MOST: u64 = i64::MAX as u64;

/// First and last commit.
pub type Stretch = (u32, u32);
/// Frames and fee, or the number.
pub type Billed = Result<(i64, i64), u32>;

#[derive(Clone, Copy, Debug, PartialEq, Eq)]
pub struct Step {
    pub upper: u64,
    pub price: u32,
}

/// Whether these steps are a tariff.
pub fn keeps_rules(steps: &[Step]) -> bool {
    steps.len() <= MOST_STEPS
        && steps.windows(2).all(|pair| pair[0].upper < pair[1].upper)
        && steps.last().is_some_and(|last| last.upper == MOST)
}

/// The tariff of a table.
pub fn tariff(table: &[u8]) -> Option<Vec<Step>> {
    let (steps, rest) = table.as_chunks::<STEP>();
    let step = |bytes: &[u8; STEP]| {
        let (upper, price) = bytes.split_at(8);
        Step {
            upper: u64::from_le_bytes(upper.try_into().expect("8 bytes")),
            price: u32::from_le_bytes(price.try_into().expect("4 bytes")),
        }
    };
    let steps: Vec<Step> = steps.iter().map(step).collect();
    (rest.is_empty() && keeps_rules(&steps)).then_some(steps)
}

pub fn table(steps: &[Step]) -> Vec<u8> {
    let bytes = |step: &Step| [&step.upper.to_le_bytes()[..], &step.price.to_le_bytes()].concat();
    steps.iter().flat_map(bytes).collect()
}

/// What this number of frames costs, in hundred-thousandths of a cent.
pub fn cost(steps: &[Step], frames: u128) -> u128 {
    let mut below = 0;
    let mut cost = 0;
    for step in steps {
        let upper = u128::from(step.upper);
        cost += frames.min(upper).saturating_sub(below) * u128::from(step.price);
        below = upper;
    }
    cost
}

/// The fee in cents, rounded once, halves away from zero.
pub fn fee(steps: &[Step], frames: i128) -> i128 {
    let cents = ((cost(steps, frames.unsigned_abs()) + 50_000) / 100_000) as i128;
    if frames < 0 {
        -cents
    } else {
        cents
    }
}

/// One address over a stretch.
#[derive(Clone, Copy, Debug, Default, PartialEq, Eq)]
pub struct Sum {
    pub frames: i128,
    pub written: bool,
    pub beyond: bool,
}

impl Sum {
    fn add(&mut self, old: u64, new: u64) {
        self.frames += i128::from(new) - i128::from(old);
        self.written = true;
        self.beyond |= old > MOST || new > MOST;
    }

    /// Frames and fee, or 18.
    pub fn bill(&self, steps: &[Step]) -> Billed {
        if self.beyond {
            return Err(BEYOND);
        }
        let fee = fee(steps, self.frames);
        if fee.unsigned_abs() > u128::from(MOST) {
            return Err(BEYOND);
        }
        Ok((self.frames as i64, fee as i64))
    }
}

/// Where an archive was refused: the number, and the last commit before it.
pub type Refused = (Refusal, u32);

/// Plays the whole archive and shows each record of the stretch with the values before it; the last commit.
fn walk(
    archive: &[u8],
    stretch: Stretch,
    mut each: impl FnMut(&View, &[u64; ADDRESSES]),
) -> Result<u32, Refused> {
    let mut playback = Playback::FRESH;
    let mut before = playback.values;
    let mut rest = archive;
    while !rest.is_empty() {
        before.copy_from_slice(&playback.values);
        let view = playback
            .record(rest)
            .map_err(|number| (number, playback.last))?;
        if (stretch.0..=stretch.1).contains(&view.header.commit) {
            each(&view, &before);
        }
        rest = &rest[view.length()..];
    }
    Ok(playback.last)
}

fn in_archive(stretch: Stretch, last: u32) -> bool {
    1 <= stretch.0 && stretch.0 <= stretch.1 && stretch.1 <= last
}

/// Sums of all addresses; the last commit of the archive. 13 is left to the caller.
pub fn sums(archive: &[u8], stretch: Stretch) -> Result<([Sum; ADDRESSES], u32), Refused> {
    let mut sums = [Sum::default(); ADDRESSES];
    let last = walk(archive, stretch, |view, before| {
        for (address, value) in view.writes() {
            sums[usize::from(address)].add(before[usize::from(address)], value);
        }
    })?;
    Ok((sums, last))
}

/// One call: frames and fee of an address, or the number.
pub fn bill(archive: &[u8], table: &[u8], stretch: Stretch, address: u8) -> Billed {
    let steps = tariff(table).ok_or(TARIFF)?;
    let (sums, last) = sums(archive, stretch).map_err(|(refusal, _)| refusal.number())?;
    if !in_archive(stretch, last) {
        return Err(Refusal::Sequence.number());
    }
    sums[usize::from(address)].bill(&steps)
}

/// The same in one pass over the archive, for the benchmark: safe Rust as one would write it for one address.
pub fn bill_one(archive: &[u8], table: &[u8], stretch: Stretch, address: u8) -> Billed {
    let steps = tariff(table).ok_or(TARIFF)?;
    let mut playback = Playback::FRESH;
    let mut sum = Sum::default();
    let mut rest = archive;
    while !rest.is_empty() {
        let old = playback.values[usize::from(address)];
        let view = playback.record(rest).map_err(Refusal::number)?;
        if (stretch.0..=stretch.1).contains(&view.header.commit) {
            let written = &view.addresses[view.header.reads as usize..];
            if written.contains(&address) {
                sum.add(old, playback.values[usize::from(address)]);
            }
        }
        rest = &rest[view.length()..];
    }
    if !in_archive(stretch, playback.last) {
        return Err(Refusal::Sequence.number());
    }
    sum.bill(&steps)
}

#[cfg(test)]
mod tests {
    use super::*;

    fn flat(price: u32) -> Vec<Step> {
        vec![Step { upper: MOST, price }]
    }

    /// Frame by frame.
    fn counted(steps: &[Step], frames: u64) -> u128 {
        let price = |frame: u64| {
            steps
                .iter()
                .find(|step| frame <= step.upper)
                .map(|step| step.price)
        };
        (1..=frames)
            .map(|frame| u128::from(price(frame).expect("a step")))
            .sum()
    }

    #[test]
    fn steps_cost_what_their_frames_do() {
        let steps = [(0, 9), (3, 7), (4, 0), (10, 1_000), (MOST, 1)]
            .map(|(upper, price)| Step { upper, price });
        assert!(keeps_rules(&steps));
        for frames in 0..40 {
            assert_eq!(cost(&steps, u128::from(frames)), counted(&steps, frames));
        }
    }

    #[test]
    fn halves_go_away_from_zero() {
        for (frames, cents) in [(49_999, 0), (50_000, 1), (149_999, 1), (150_000, 2)] {
            assert_eq!(fee(&flat(1), frames), cents);
            assert_eq!(fee(&flat(1), -frames), -cents);
        }
    }

    #[test]
    fn tables_that_break_the_rules() {
        let step = |upper| Step { upper, price: 1 };
        assert_eq!(tariff(&[]), None);
        assert_eq!(tariff(&table(&flat(1))[1..]), None);
        assert!(!keeps_rules(&[step(5), step(5), step(MOST)]));
        assert!(!keeps_rules(&[step(MOST - 1)]));
        assert!(!keeps_rules(&[step(MOST), step(u64::MAX)]));
        let many = |n: u64| -> Vec<Step> { (1..n).map(step).chain([step(MOST)]).collect() };
        assert!(keeps_rules(&many(16)));
        assert!(!keeps_rules(&many(17)));
    }
}
