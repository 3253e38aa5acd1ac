//! The compiled stations through the C interface: document 01's C1 and C2 by hand, then the comparison itself.

#![cfg(feature = "proved")]

use second::ffi::stations as proved;
use second::line::lent::{Lent, COMMIT, MESSAGES, TOLD};
use second::line::station::state::LENGTH;
use std::process::Command;

/// A compiled station and what is lent beside its state.
struct Compiled {
    state: Vec<u8>,
    messages: Vec<u8>,
    commit: Vec<u8>,
    told: Vec<u64>,
}

impl Compiled {
    fn fresh(station: u32, kind: u32) -> Compiled {
        let mut state = vec![0xFF; LENGTH];
        assert_eq!(proved::fresh(station, kind, &mut state), 0);
        Compiled {
            state,
            messages: vec![0xFF; MESSAGES],
            commit: vec![0xFF; COMMIT],
            told: vec![9; TOLD],
        }
    }

    /// An accepted call; what it told.
    fn tells(&mut self, call: impl FnOnce(&mut Lent) -> u32) -> [u64; TOLD] {
        assert_eq!(self.number(call), 0);
        self.told[..].try_into().unwrap()
    }

    fn number(&mut self, call: impl FnOnce(&mut Lent) -> u32) -> u32 {
        call(&mut Lent {
            state: &mut self.state,
            messages: &mut self.messages,
            commit: &mut self.commit,
            told: &mut self.told,
        })
    }
}

/// A page message for address 8, transaction 1, all values 0.
fn page(kind: u8) -> [u8; 144] {
    let mut message = [0; 144];
    message[..5].copy_from_slice(&[kind, 0, 1, 0, 1]);
    message
}

#[test]
fn c1_and_c2() {
    let mut station = Compiled::fresh(0, 0);
    assert_eq!(station.number(|lent| proved::read(8, lent)), 8);
    assert_eq!(station.tells(proved::begin), [1, 1, 0, 0]);
    assert_eq!(station.number(proved::begin), 9);
    assert_eq!(station.tells(|lent| proved::read(8, lent)), [3, 0, 1, 0]);
    assert_eq!(station.messages[..5], [1, 0, 1, 0, 1]);
    assert_eq!(station.messages[5..144], [0; 139]);
    assert_eq!(station.messages[144..], [0xFF; MESSAGES - 144]);
    assert_eq!(station.number(|lent| proved::read(9, lent)), 7);
    let step = |kind| move |lent: &mut Lent| proved::step(&page(kind), lent);
    assert_eq!(station.number(step(18)), 6);
    assert_eq!(station.tells(step(16)), [2, 0, 0, 0]);
    assert_eq!(
        station.tells(|lent| proved::write(8, 5, lent)),
        [3, 0, 1, 0]
    );
    assert_eq!(station.tells(step(18)), [4, 0, 0, 0]);
    assert_eq!(station.tells(|lent| proved::read(8, lent)), [2, 5, 0, 0]);
    assert_eq!(station.number(|lent| proved::purge(1, lent)), 10);
    assert_eq!(station.number(|lent| proved::purge(32, lent)), 4);
    // one read, one write: 144 bytes, two versions and a record of 34
    assert_eq!(station.tells(proved::commit), [3, 0, 0, 186]);
    assert_eq!(station.commit[..12], [3, 0, 0, 0, 1, 0, 0, 0, 2, 0, 0, 0]);
    assert_eq!(station.number(proved::abort), 7);
}

#[test]
fn checks() {
    assert_eq!(proved::down_check(0, &page(16)), 0);
    assert_eq!(proved::down_check(8, &page(16)), 4);
    assert_eq!(proved::down_check(0, &page(1)), 3);
    assert_eq!(proved::down_check(0, &page(16)[1..]), 2);
    assert_eq!(proved::up_check(&[0; 8], &page(1)), 0);
    assert_eq!(proved::up_check(&[0; 7], &page(1)), 1);
    assert_eq!(proved::up_check(&[0; 8], &page(16)), 3);
}

#[test]
fn no_difference() {
    let program = env!("CARGO_BIN_EXE_stations");
    let output = Command::new(program).args(["--calls", "30000"]).output();
    let output = output.expect("the program starts");
    let text = String::from_utf8_lossy(&output.stdout);
    assert!(output.status.success(), "{text}");
    assert!(text.trim_end().ends_with("no difference"), "{text}");
}
