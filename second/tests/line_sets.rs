//! Document 02, wish 9, "Lock a set, or none of it", as scripts: cases, readings 20 to 22, limits. Stations are locking unless a
//! test says otherwise.

#[allow(dead_code)]
mod line_text;

use line_text::*;
use second::line::call::Call;
use second::line::crossing::Crossing;
use second::line::world::World;

const LOCKING: &str = "00000000";
const MIXED: &str = "01000000";
const PAGE_1: u32 = 1 << 1;

/// Objects 0, 1 and 2 of page 1: the three counters of a bottle that is rejected.
const BOTTLE: u8 = 0b111;

/// "A locking head that rejects a bottle touches three counters of one page": alone on it, the whole page.
#[test]
fn a_bottle_alone() {
    let mut line = Line::fresh(LOCKING);
    line.run("begin 0");
    line.call("writes 0 1 7 1 2 3", "waits", &[writes(0, 1, BOTTLE, 1)]);
    line.replies("writes 0 1 7 1 2 3", "refused 7");
    line.call("server 0", "none", &[page(18, 0, 1, 0, 1)]);
    line.call("station 0", "written", &[]);
    for (address, value) in [(8, 1), (9, 2), (10, 3), (11, 0)] {
        line.call(&format!("read 0 {address}"), &format!("value {value}"), &[]);
    }
    // "at once if none is named"
    line.call("writes 0 1 24 4 5", "written", &[]);
    let record = record(1, 0, 0).reads(&[(11, 0)]);
    let record = record.writes(&[(8, 1), (9, 2), (10, 3), (11, 4), (12, 5)]);
    line.call("commit 0", "waits", &[commit(PAGE_1, &[], &record)]);
    line.archives("server 0", "none", &[committed(0, 1, 1)], &[record]);
    line.call("station 0", "committed 1", &[]);
}

/// Station 2 has read 15, so that 0 gets locks on objects.
fn beside_a_reader() -> Line {
    let mut line = Line::fresh(LOCKING);
    line.run("begin 2; read 2 15; server 2; station 2; begin 0");
    line
}

/// "The request waits for all its objects and takes them in one step": one 20 names them all, one 17 locks them all.
#[test]
fn called_back_for_all() {
    let mut line = beside_a_reader();
    line.call("writes 0 1 7 1 2 3", "waits", &[writes(0, 1, BOTTLE, 1)]);
    line.call("server 0", "none", &[callback(2, 0, 1, &[(1, BOTTLE)])]);
    line.call("station 2", "none", &[done(2, 0, 1, 0)]);
    line.call("server 2", "none", &[page(17, 0, 1, 0, 1)]);
    line.call("station 0", "written", &[]);
    // each is locked at both ends
    line.call("writes 0 1 7 4 5 6", "written", &[]);
    line.run("begin 3; read 3 10; server 3");
    line.replies("station 3", "empty");
    line.call("abort 0", "aborted", &[abort(0, 1)]);
    line.call("server 0", "none", &[page(16, 3, 1, 2, 1)]);
}

/// "if the open transaction has read or written a named object": the highest of them too.
#[test]
fn busy_for_one_of_them() {
    let mut line = Line::fresh(LOCKING);
    line.run("begin 2; read 2 10; server 2; station 2; begin 0; writes 0 1 7 1 2 3; server 0");
    line.call("station 2", "none", &[busy(2, 0, 1)]);
    line.call("server 2", "none", &[]);
    line.replies("station 0", "empty");
    let messages = [abort(2, 1), done(2, 0, 1, PAGE_1)];
    line.call("abort 2", "aborted", &messages);
    line.call("server 2", "none", &[]);
    line.call("server 2", "none", &[page(18, 0, 1, 0, 1)]);
}

/// "the request names those under no lock yet, and all are written when the grant arrives"
#[test]
fn named_are_those_under_no_lock() {
    let mut line = beside_a_reader();
    line.run("write 0 9 1; server 0; station 2; server 2; station 0");
    line.call("writes 0 1 7 5 6 7", "waits", &[writes(0, 1, 0b101, 1)]);
    line.call("server 0", "none", &[callback(2, 0, 1, &[(1, 0b101)])]);
    // 9 has its old value until the grant arrives
    line.call("station 2", "none", &[done(2, 0, 1, 0)]);
    line.call("server 2", "none", &[page(17, 0, 1, 0, 1)]);
    line.call("station 0", "written", &[]);
    line.call("read 0 9", "value 6", &[]);
    let record = record(1, 0, 0).writes(&[(8, 5), (9, 6), (10, 7)]);
    line.call("commit 0", "waits", &[commit(PAGE_1, &[], &record)]);
    line.archives("server 0", "none", &[committed(0, 1, 1)], &[record]);
}

/// A loser in between has nothing of its set, and what it wrote before is undone.
#[test]
fn none_of_it() {
    let mut line = beside_a_reader();
    line.run("write 0 9 1; server 0; station 2; server 2; station 0");
    line.run("read 2 12; writes 0 1 21 5 6 7; server 0");
    line.call("station 2", "none", &[busy(2, 0, 1)]);
    line.run("server 2; write 2 9 4");
    // 2 waits for 0's lock on 9, 0 for what 2 has read: 2 is the older
    line.call(
        "server 2",
        "none",
        &[aborted(0, 1, 1), callback(0, 2, 1, &[(1, 2)])],
    );
    line.call("station 0", "aborted 1", &[]);
    line.call("station 0", "none", &[done(0, 2, 1, PAGE_1)]);
    line.call("server 0", "none", &[page(18, 2, 1, 0, 1)]);
    line.call("station 2", "written", &[]);
    line.call("read 2 8", "value 0", &[]);
    line.call("read 2 10", "value 0", &[]);
}

/// Reading 22: "Blocked by any": a set waits behind a lock on its highest object, and holds nothing meanwhile.
#[test]
fn blocked_by_any() {
    let mut line = beside_a_reader();
    line.run("write 2 10 9; server 2; station 2; writes 0 1 7 1 2 3");
    // 2 has the page whole
    line.call("server 0", "none", &[de_escalate(2, 1, 1)]);
    line.call("station 2", "none", &[written_set(2, 1, 1, 4)]);
    line.call("server 2", "none", &[]);
    line.replies("station 0", "empty");
    // what waits is taken by nobody: 3 reads 11, and 8 and 9 are unavailable there, as is 10
    line.run("begin 3; read 3 11");
    line.call(
        "server 3",
        "none",
        &[page(16, 3, 1, 3, 1).unavailable(BOTTLE)],
    );
    line.run("station 3; abort 3; server 3; purge 3 1; server 3");
    line.call("abort 2", "aborted", &[abort(2, 1)]);
    line.call("server 2", "none", &[callback(2, 0, 1, &[(1, BOTTLE)])]);
    line.call("station 2", "none", &[done(2, 0, 1, PAGE_1)]);
    line.call("server 2", "none", &[page(18, 0, 1, 0, 1)]);
}

/// Reading 22: "edges for each": two sets that meet in one object, each behind the other's.
#[test]
fn edges_for_each() {
    let mut line = beside_a_reader();
    // 0 has 8 and 9 locked, 3 has 12 and 13
    line.run("writes 0 1 3 1 1; server 0; station 2; server 2; station 0");
    line.run(
        "begin 3; writes 3 1 48 1 1; server 3; station 2; server 2; station 0; server 0; station 3",
    );
    line.call("writes 0 1 36 2 2", "waits", &[writes(0, 1, 0b10_0100, 1)]);
    line.call("server 0", "none", &[]);
    // 13 is the highest of 0's, 9 of 3's
    line.call("writes 3 1 10 2 2", "waits", &[writes(3, 1, 0b1010, 1)]);
    let called = [2, 3].map(|station| callback(station, 0, 1, &[(1, 0b10_0100)]));
    let messages = [&[aborted(3, 1, 1)], &called[..]].concat();
    line.call("server 3", "none", &messages);
}

/// An earlier waiter that wants one of them keeps the whole set waiting, and a later one keeps behind all of it.
#[test]
fn waits_behind_a_waiter() {
    let mut line = Line::fresh(LOCKING);
    line.run("begin 2; read 2 8; server 2; station 2; begin 0; begin 3; begin 4");
    line.run("writes 0 1 3 1 1; server 0; writes 3 1 6 2 2; server 3; write 4 10 3; server 4");
    // 9 is 0's, 10 is 3's: nobody has a 20 for 3 or 4
    line.call("station 2", "none", &[busy(2, 0, 1)]);
    line.replies("station 2", "empty");
    line.run("server 2");
    line.call("abort 2", "aborted", &[abort(2, 1), done(2, 0, 1, PAGE_1)]);
    line.call("server 2", "none", &[]);
    // others wait to write there: an object's lock, and what they want is unavailable, without 0's own
    line.call(
        "server 2",
        "none",
        &[page(17, 0, 1, 0, 1).unavailable(0b100)],
    );
    line.call("station 0", "written", &[]);
    line.run("abort 0");
    line.call("server 0", "none", &[callback(0, 3, 1, &[(1, 6)])]);
}

/// Unavailable leaves out all that are named, and has what others wait to write.
#[test]
fn unavailable_without_the_named() {
    let mut line = Line::fresh(LOCKING);
    line.run("begin 2; read 2 9; server 2; station 2; begin 0; begin 3");
    line.run("writes 0 1 3 1 1; server 0; writes 3 1 14 2 2 2; server 3; station 2; server 2; abort 2; server 2");
    let granted = page(17, 0, 1, 0, 1).unavailable(0b1100);
    line.call("server 2", "none", &[granted]);
}

/// Reading 20: 4 before 7, and before 8; a page above 31, the empty set, several of a validating owner.
#[test]
fn ranges() {
    let mut line = Line::fresh(MIXED);
    for (command, number) in [
        ("writes 0 32 1 5", 4),
        ("writes 0 4294967295 1 5", 4),
        ("writes 0 1 0", 4),
        ("writes 1 1 0", 4),
        ("writes 1 1 3 5 6", 4),
        ("writes 0 1 3 5 6", 8),
        ("writes 1 1 2 5", 8),
    ] {
        line.replies(command, &format!("refused {number}"));
    }
    line.run("begin 0; begin 1; read 0 8; read 1 8");
    line.replies("writes 0 32 1 5", "refused 4");
    line.replies("writes 0 1 0", "refused 4");
    line.replies("writes 1 1 3 5 6", "refused 4");
    line.replies("writes 0 1 3 5 6", "refused 7");
    line.replies("writes 1 1 2 5", "refused 7");
    for malformed in [
        "writes 0 1 3 5",
        "writes 0 1 3 5 6 7",
        "writes 0 1 256 5",
        "writes 0 1 0 5",
        "writes 0 1",
        "writes 8 1 1 5",
        "writes 0 1 1 -5",
        "writes 0 4294967296 1 5",
    ] {
        line.replies(malformed, "error");
    }
}

/// A validating owner's set of one is its write.
#[test]
fn validating() {
    let mut line = Line::fresh(MIXED);
    line.run("begin 1");
    line.call("writes 1 1 4 7", "waits", &[read(1, 1, 2, 1)]);
    line.call("server 1", "none", &[page(16, 1, 1, 2, 1)]);
    line.station_refuses(&page(16, 1, 1, 1, 1), 6);
    line.call("station 1", "written", &[]);
    line.call("writes 1 1 8 8", "written", &[]);
    let record = record(1, 1, 1).writes(&[(10, 7), (11, 8)]);
    line.call("commit 1", "waits", &[commit(PAGE_1, &[], &record)]);
    line.archives("server 1", "none", &[committed(1, 1, 1)], &[record]);
}

/// Reading 21: 17 and 18 fit by transaction and page; 16 answers no write of a locking station.
#[test]
fn what_fits() {
    for kind in [17, 18] {
        let mut line = Line::fresh(LOCKING);
        line.run("begin 0; writes 0 1 6 5 6");
        line.station_refuses(&page(16, 0, 1, 1, 1), 6);
        line.station_refuses(&page(kind, 0, 2, 0, 1), 6);
        line.station_refuses(&page(kind, 0, 1, 0, 2), 6);
        let named = Message {
            byte_3: 1,
            ..page(kind, 0, 1, 0, 1)
        };
        line.station_refuses(&named, 4);
        line.station_takes(&page(kind, 0, 1, 0, 1), "written", &[]);
        line.call("read 0 9", "value 5", &[]);
        line.call("read 0 10", "value 6", &[]);
        line.station_refuses(&page(kind, 0, 1, 0, 1), 6);
    }
}

/// Wish 1: 15 is for the whole set, behind 8, also where it would wait; what is written already is none more.
#[test]
fn the_limit_counts_the_whole_set() {
    let mut line = Line::fresh(LOCKING);
    line.replies("writes 0 1 3 1 1", "refused 8");
    line.run("begin 0");
    for first in 0..5 {
        let set = format!("writes 0 {first} 255 1 2 3 4 5 6 7 8; server 0; station 0");
        line.run(&set);
    }
    line.run("writes 0 5 31 1 2 3 4 5; server 0; station 0");
    // 45 are written
    line.replies("writes 0 6 15 1 2 3 4", "refused 15");
    line.replies("writes 0 7 255 1 2 3 4 5 6 7 8", "refused 15");
    // three more beside those written
    line.call("writes 0 5 248 4 5 6 7 8", "written", &[]);
}

/// "But for these bytes a set of one behaves as the single request did": two lines in step.
#[test]
fn a_set_of_one_is_the_single_request() {
    for seed in 1..=200 {
        let mut crossing = Crossing::new(seed, 250);
        let mut single = World::fresh(crossing.kinds);
        let mut sets = single.clone();
        while let Some(call) = crossing.next(&single) {
            let call = match call {
                // the sets of several are left out here
                Call::WriteSet(station, ..) => Call::Commit(station),
                call => call,
            };
            let reply = single.call(&call);
            crossing.saw(&call, &reply);
            assert_eq!(sets.call(&as_set(&call)), reply, "{call}");
            assert!(sets == single, "{call}");
        }
    }
}

/// A write of one object as a set of one.
fn as_set(call: &Call) -> Call {
    match call {
        Call::Write(station, address, value) => {
            let mut values = [0; 8];
            values[usize::from(address % 8)] = *value;
            Call::WriteSet(*station, (address / 8).into(), 1 << (address % 8), values)
        }
        call => call.clone(),
    }
}
