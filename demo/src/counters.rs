//! What is counted in a shift, and at which address.

use std::collections::BTreeMap;

pub const HEADS: usize = 6;
pub const LANES: usize = 3;
pub const FAULTS: usize = 4;

/// Amounts by address.
pub type Counts = BTreeMap<u8, u64>;

/// Page 1: every head adds to these.
pub const FRAMES: u8 = 8;
pub const PASSED: u8 = 9;
pub const REJECTED: u8 = 10;
/// Page 2: passed and rejected of each lane, which has two heads.
const LANE: u8 = 16;
/// Page 3: every head adds to the faults.
const FAULT: u8 = 24;
/// Page 4: an object of its own for each head, beside the others'.
const HEAD: u8 = 32;
/// Page 5: the shift office's own.
pub const HOURS: u8 = 40;
pub const CLOSED_FRAMES: u8 = 41;
pub const CLOSED_REJECTED: u8 = 42;

/// Every counter with its name, addresses rising.
pub const COUNTERS: [(u8, &str); 22] = [
    (FRAMES, "line, frames"),
    (PASSED, "line, passed"),
    (REJECTED, "line, rejected"),
    (16, "lane A, passed"),
    (17, "lane A, rejected"),
    (18, "lane B, passed"),
    (19, "lane B, rejected"),
    (20, "lane C, passed"),
    (21, "lane C, rejected"),
    (24, "fault, fill level"),
    (25, "fault, cap"),
    (26, "fault, label"),
    (27, "fault, glass"),
    (32, "head 0, frames"),
    (33, "head 1, frames"),
    (34, "head 2, frames"),
    (35, "head 3, frames"),
    (36, "head 4, frames"),
    (37, "head 5, frames"),
    (HOURS, "office, hours closed"),
    (CLOSED_FRAMES, "office, frames at closing"),
    (CLOSED_REJECTED, "office, rejected at closing"),
];

/// The pages with a head's counters.
pub const PAGES: [u8; 4] = [1, 2, 3, 4];

pub fn lane_of(head: usize) -> usize {
    head % LANES
}

pub fn of_lane(lane: usize, rejected: bool) -> u8 {
    LANE + 2 * lane as u8 + u8::from(rejected)
}

pub fn of_fault(fault: usize) -> u8 {
    FAULT + fault as u8
}

pub fn of_head(head: usize) -> u8 {
    HEAD + head as u8
}

/// The heads' counters, addresses rising.
pub fn of_heads() -> impl Iterator<Item = u8> {
    let addresses = COUNTERS.iter().map(|(address, _)| *address);
    addresses.filter(|address| *address < HOURS)
}

/// Do totals read at one moment fit each other: every frame in each of the ways that it is counted?
pub fn add_up(read: &Counts) -> bool {
    let of = |address: u8| read.get(&address).copied().unwrap_or(0);
    let lanes = |rejected: bool| (0..LANES).map(|lane| of(of_lane(lane, rejected))).sum();
    let faults: u64 = (0..FAULTS).map(|fault| of(of_fault(fault))).sum();
    let heads: u64 = (0..HEADS).map(|head| of(of_head(head))).sum();
    of(FRAMES) == of(PASSED) + of(REJECTED)
        && of(FRAMES) == heads
        && of(PASSED) == lanes(false)
        && of(REJECTED) == lanes(true)
        && of(REJECTED) == faults
}

#[cfg(test)]
mod tests {
    use super::*;

    #[test]
    fn every_counter_has_its_name() {
        assert!(COUNTERS.is_sorted_by(|a, b| a.0 < b.0));
        for lane in 0..LANES {
            for rejected in [false, true] {
                assert!(of_heads().any(|address| address == of_lane(lane, rejected)));
            }
        }
        assert!((0..FAULTS).all(|fault| of_heads().any(|address| address == of_fault(fault))));
        assert!((0..HEADS).all(|head| of_heads().any(|address| address == of_head(head))));
        assert!(of_heads().all(|address| PAGES.contains(&(address / 8))));
    }

    #[test]
    fn totals_add_up() {
        let mut read = Counts::from([(FRAMES, 1), (REJECTED, 1), (17, 1), (26, 1), (35, 1)]);
        assert!(add_up(&read));
        for address in read.clone().into_keys() {
            let mut wrong = read.clone();
            wrong.insert(address, 2);
            assert!(!add_up(&wrong), "{address}");
        }
        read.insert(PASSED, 1);
        assert!(!add_up(&read));
    }
}
