//! The compiled server through the C interface: document 01's C1 and C2 by hand, then the comparisons themselves.

#![cfg(feature = "proved")]

use second::ffi::server as proved;
use second::line::places::Place;
use second::line::served::{Lent, MESSAGES, RECORDS, SERVED};
use second::line::server::state::{Field, LENGTH};
use std::process::Command;

/// The compiled server and what is lent beside its state.
struct Compiled {
    state: Vec<u8>,
    messages: Vec<u8>,
    records: Vec<u8>,
    served: Vec<u64>,
}

impl Compiled {
    fn fresh(kinds: &[u8]) -> Compiled {
        let mut state = vec![0xFF; LENGTH];
        assert_eq!(proved::fresh(kinds, &mut state), 0);
        Compiled {
            state,
            messages: vec![0xFF; MESSAGES],
            records: vec![0xFF; RECORDS],
            served: vec![9; SERVED],
        }
    }

    fn number(&mut self, message: &[u8]) -> u32 {
        proved::step(
            message,
            &mut Lent {
                state: &mut self.state,
                messages: &mut self.messages,
                records: &mut self.records,
                served: &mut self.served,
            },
        )
    }

    /// An accepted step; how many messages and bytes of records.
    fn serves(&mut self, message: &[u8]) -> [u64; SERVED] {
        assert_eq!(self.number(message), 0);
        self.served[..].try_into().unwrap()
    }
}

/// Page 1, object 0, transaction 1 of station 0; a request to write names the object by its set.
fn request(kind: u8) -> [u8; 144] {
    let mut message = [0; 144];
    message[..5].copy_from_slice(&[kind, 0, 1, 0, 1]);
    message[16] = u8::from(kind == 2);
    message
}

#[test]
fn c1_and_c2() {
    let mut server = Compiled::fresh(&[0; 8]);
    assert_eq!(server.serves(&request(1)), [1, 0]);
    assert_eq!(server.messages[..5], [16, 0, 1, 0, 1]);
    assert_eq!(server.messages[5..144], [0; 139]);
    assert_eq!(server.messages[144..], [0xFF; MESSAGES - 144]);
    assert_eq!(server.records, [0xFF; RECORDS]);
    assert_eq!(Field::Listed.word(&server.state, 0), 0b10);
    assert_eq!(server.serves(&request(2)), [1, 0]);
    assert_eq!(server.messages[..5], [18, 0, 1, 0, 1]);
    assert_eq!(Field::Whole.byte_of(&server.state, 1), 1);
    // a purge of a locked page, a kind of the other way, a message cut
    let state = server.state.clone();
    let mut purge = [0; 144];
    purge[..3].copy_from_slice(&[5, 0, 1]);
    assert_eq!(server.number(&purge), 6);
    assert_eq!(server.number(&request(16)), 3);
    assert_eq!(server.number(&request(1)[1..]), 2);
    assert_eq!(server.number(&[]), 2);
    assert_eq!(server.state, state);
    assert_eq!(server.served, [1, 0]);
}

/// "an empty commit takes a number and a record": 16 bytes.
#[test]
fn a_record() {
    let mut server = Compiled::fresh(&[0; 8]);
    let mut commit = vec![0; 160];
    commit[..5].copy_from_slice(&[3, 0, 0, 0, 1]);
    commit[144 + 8] = 1;
    assert_eq!(server.serves(&commit), [1, 16]);
    assert_eq!(
        server.messages[..16],
        [21, 0, 0, 0, 1, 0, 0, 0, 0, 0, 0, 0, 1, 0, 0, 0]
    );
    assert_eq!(
        server.records[..16],
        [0, 0, 0, 0, 1, 0, 0, 0, 1, 0, 0, 0, 0, 0, 0, 0]
    );
    assert_eq!(server.records[16..], [0xFF; RECORDS - 16]);
}

#[test]
fn number_1() {
    let mut server = Compiled::fresh(&[1; 8]);
    server.served.pop();
    assert_eq!(server.number(&request(1)), 1);
    server.served.push(9);
    server.messages.pop();
    assert_eq!(server.number(&[]), 1);
    server.messages.push(0);
    server.records.pop();
    assert_eq!(server.number(&request(1)), 1);
    server.records.push(0);
    Field::Want.put_byte(&mut server.state, 4);
    assert_eq!(server.number(&request(1)), 1);
    Field::Want.put_byte(&mut server.state, 0);
    assert_eq!(server.number(&request(1)), 0);
}

#[test]
fn fresh() {
    let mut state = vec![7; LENGTH];
    assert_eq!(proved::fresh(&[0, 1, 2, 3, 0, 0, 0, 0], &mut state), 4);
    assert_eq!(proved::fresh(&[0; 7], &mut state), 4);
    assert_eq!(proved::fresh(&[3; 9], &mut state[1..]), 1);
    assert_eq!(state, [7; LENGTH]);
}

fn no_difference(program: &str, arguments: &[&str]) {
    let output = Command::new(program).args(arguments).output();
    let output = output.expect("the program starts");
    let text = String::from_utf8_lossy(&output.stdout);
    assert!(output.status.success(), "{text}");
    assert!(text.trim_end().ends_with("no difference"), "{text}");
}

#[test]
fn lines_agree() {
    let program = env!("CARGO_BIN_EXE_lines");
    no_difference(program, &["--calls", "20000", "--long", "2000"]);
}

#[test]
fn replies_agree() {
    let second = env!("CARGO_BIN_EXE_line_second");
    let proved = env!("CARGO_BIN_EXE_line_proved");
    let program = env!("CARGO_BIN_EXE_line_both");
    no_difference(program, &[second, proved, "--runs", "20"]);
}

/// A waiter's request outside its sets, which led to a lock beside another's whole lock, is number 1: station 0 waits to
/// write on page 1, its written set names address 16, and station 1 holds page 1 whole. With 9 in the set it is asked for.
#[test]
fn a_request_outside_its_set() {
    let mut server = Compiled::fresh(&[0; 8]);
    let fields = [
        (Field::NextAge, 0, 3),
        (Field::NextArrival, 0, 2),
        (Field::Age, 0, 1),
        (Field::Age, 8, 2),
        (Field::Arrival, 0, 1),
        (Field::Latest, 0, 1),
        (Field::Latest, 4, 1),
        (Field::Unfinished, 0, 1),
        (Field::Unfinished, 1, 1),
        (Field::Want, 0, 2),
        (Field::Request, 0, 8),
        (Field::WrittenSet, 2, 1),
        (Field::Whole, 1, 2),
        (Field::WholeFor, 4, 1),
    ];
    for (field, at, byte) in fields {
        server.state[field.start() + at] = byte;
    }
    let mut purge = [0; 144];
    purge[..3].copy_from_slice(&[5, 2, 31]);
    assert_eq!(server.number(&purge), 1);
    server.state[Field::WrittenSet.start() + 2] = 0;
    server.state[Field::WrittenSet.start() + 1] = 2;
    assert_eq!(server.serves(&purge), [1, 0]);
    assert_eq!(server.messages[0], 19);
    assert_eq!(server.number(&purge), 0);
}
