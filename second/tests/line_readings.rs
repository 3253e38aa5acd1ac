//! Points of the readings that C1 to C9 do not meet, as scripts. Stations are locking unless a test says otherwise.

#[allow(dead_code)]
mod line_text;

use line_text::*;

const LOCKING: &str = "00000000";
const MIXED: &str = "01000000";
const VALIDATING: &str = "11111111";

/// A locking station that reads and stays open.
const READ_8_BY_2: &str = "begin 2; read 2 8; server 2; station 2";

/// Reading 6: a page above 31 is number 4, before 7; reading 25: 7 only for the page of a request out.
#[test]
fn purges() {
    let mut line = Line::fresh(LOCKING);
    line.run(READ_8_BY_2);
    line.run("read 2 16; server 2; station 2");
    line.replies("purge 2 1", "refused 10");
    line.replies("purge 2 3", "refused 10");
    line.run("abort 2; begin 2; write 2 8 1");
    line.replies("purge 2 32", "refused 4");
    line.replies("purge 2 1", "refused 7");
    line.call("purge 2 2", "purged", &[purge(2, 2)]);
    line.replies("purge 2 2", "refused 10");
    line.run("server 2; server 2; server 2; station 2; read 2 16; server 2; station 2");
    line.run("commit 2");
    line.replies("purge 2 1", "refused 10");
    line.replies("begin 2", "refused 7");
}

/// Readings 7 to 10 and 12: number 6 at the server.
#[test]
fn unexpected_at_the_server() {
    let mut line = Line::fresh(MIXED);
    line.run(READ_8_BY_2);
    line.server_refuses(&read(2, 1, 0, 2), 6);
    line.run("write 2 8 5; server 2; station 2");
    line.server_refuses(&purge(2, 1), 6);
    line.server_refuses(&done(2, 2, 1, 3), 6);
    line.server_takes(&done(2, 2, 1, 1), &[]);
    let unlocked = record(0, 2, 0).writes(&[(16, 1)]);
    line.server_refuses(&commit(4, &[], &unlocked), 6);
    line.run("begin 0; read 0 8");
    line.call("server 0", "none", &[de_escalate(2, 1, 1)]);
    line.server_refuses(&abort(0, 1), 6);
    line.run("abort 2; server 2");
    line.server_refuses(&abort(2, 1), 6);
    line.server_takes(&abort(2, 7), &[]);
    line.server_refuses(&abort(2, 6), 6);
    for message in [
        write(1, 1, 0, 1),
        abort(1, 1),
        busy(1, 0, 1),
        done(1, 0, 1, 0),
        written_set(1, 1, 1, 0),
    ] {
        line.server_refuses(&message, 6);
    }
    line.server_takes(&read(1, 4, 0, 3), &[page(16, 1, 4, 0, 3)]);
    line.server_refuses(&read(1, 4, 0, 2), 6);
    line.server_takes(&read(1, 4, 0, 9), &[page(16, 1, 4, 0, 9)]);
    line.server_takes(&purge(1, 30), &[]);
}

/// Reading 13: number 6 at a station.
#[test]
fn unexpected_at_a_station() {
    let mut line = Line::fresh(MIXED);
    line.station_refuses(&invalidate(0, &[(0, 1)]), 6);
    line.station_refuses(&page(17, 1, 1, 0, 1), 6);
    line.station_refuses(&de_escalate(1, 1, 1), 6);
    line.station_refuses(&callback(1, 0, 1, &[]), 6);
    line.station_refuses(&committed(0, 1, 1), 6);
    line.station_refuses(&aborted(0, 1, 1), 6);
    line.run("begin 0; read 0 8; begin 1; write 1 8 5");
    line.station_refuses(&page(17, 0, 1, 0, 1), 6);
    line.station_refuses(&page(16, 0, 1, 1, 1), 6);
    line.station_refuses(&page(16, 0, 2, 0, 1), 6);
    line.station_refuses(&page(16, 0, 1, 0, 2), 6);
    line.station_refuses(&committed(0, 1, 1), 6);
    line.station_refuses(&page(16, 1, 1, 1, 1), 6);
    line.station_refuses(&page(16, 1, 1, 0, 2), 6);
    line.replies(
        &format!("stationraw 0 {}", page(16, 1, 1, 0, 1).hex()),
        "refused 6",
    );
    line.station_takes(&page(16, 1, 1, 0, 1), "written", &[]);
    line.station_takes(&aborted(0, 1, 4), "aborted 4", &[]);
}

/// Reading 14: a 16 for a transaction ended by 23 is taken and ignored.
#[test]
fn page_for_an_ended_transaction() {
    let mut line = Line::fresh(MIXED);
    line.run("begin 1; read 1 8; server 1; station 1; read 1 16");
    line.run("begin 0; write 0 8 5; server 0; station 0; commit 0; server 0");
    line.call("server 1", "none", &[page(16, 1, 2, 0, 1)]);
    line.call("station 1", "aborted 2", &[]);
    line.replies("purge 1 2", "refused 10");
    line.call("begin 1", "begun 2", &[]);
    line.call("read 1 16", "waits", &[read(1, 2, 0, 2)]);
    line.call("station 1", "none", &[]);
    line.call("server 1", "none", &[page(16, 1, 2, 0, 2)]);
    line.call("station 1", "value 0", &[]);
    line.station_refuses(&page(16, 1, 2, 0, 3), 6);
}

/// Reading 15, and "4 crosses 19": the 8 of a finished transaction is empty and does nothing.
#[test]
fn written_set_of_a_finished_transaction() {
    let mut line = Line::fresh(LOCKING);
    line.run("begin 0; write 0 8 5; server 0; station 0");
    line.run("begin 2; read 2 9");
    line.call("server 2", "none", &[de_escalate(0, 1, 1)]);
    line.call("abort 0", "aborted", &[abort(0, 1)]);
    line.call("server 0", "none", &[page(16, 2, 1, 1, 1)]);
    line.call("station 0", "none", &[written_set(0, 1, 1, 0)]);
    line.call("server 0", "none", &[]);
}

/// Reading 11: an 8 without a 19 does nothing, a set joins earlier locks, and a new 18 may get a new 19.
#[test]
fn written_sets() {
    let mut line = Line::fresh(LOCKING);
    line.run("begin 0; write 0 8 5; server 0; station 0");
    line.server_takes(&written_set(0, 1, 1, 0), &[]);
    line.run("begin 2; read 2 9");
    line.call("server 2", "none", &[de_escalate(0, 1, 1)]);
    line.run("begin 3; read 3 10");
    line.call("server 3", "none", &[]);
    line.call("station 0", "none", &[written_set(0, 1, 1, 1)]);
    let pages = [
        page(16, 2, 1, 1, 1).unavailable(1),
        page(16, 3, 1, 2, 1).unavailable(1),
    ];
    line.call("server 0", "none", &pages);
    line.run("station 2; station 3; abort 2; abort 3; server 2; server 3");
    // alone again once 2 and 3 have dropped the page
    line.run("write 0 9 6; server 0; station 2; station 3; server 2");
    line.call("server 3", "none", &[page(18, 0, 1, 1, 1)]);
    line.run("station 0; begin 2; read 2 10");
    line.call("server 2", "none", &[de_escalate(0, 1, 1)]);
    line.call("station 0", "none", &[written_set(0, 1, 1, 3)]);
    line.call("server 0", "none", &[page(16, 2, 1, 2, 2).unavailable(3)]);
}

/// Reading 17: a page whose request is out is marked and kept, though nothing on it is used.
#[test]
fn requested_page_is_kept() {
    let mut line = Line::fresh(LOCKING);
    line.run(READ_8_BY_2);
    line.run("abort 2; server 2; begin 2; begin 0; write 0 9 5");
    line.call("server 0", "none", &[callback(2, 0, 1, &[(1, 2)])]);
    line.call("write 2 8 6", "waits", &[write(2, 1, 0, 2)]);
    line.call("station 2", "none", &[done(2, 0, 1, 0)]);
    // 0 waits to write there: so the object alone, and 9 is unavailable
    let first = page(17, 2, 1, 0, 2).unavailable(2);
    line.call("server 2", "none", &[first]);
    let second = page(17, 0, 1, 1, 1).unavailable(1);
    line.call("server 2", "none", &[second]);
}

/// Readings 18 and 19: a newer callback answered 7 leaves the kept one; a newer kept one replaces it.
#[test]
fn kept_callbacks() {
    let mut line = Line::fresh(LOCKING);
    line.run(READ_8_BY_2);
    line.run("read 2 16; server 2; station 2");
    line.station_takes(&callback(2, 3, 1, &[(1, 1)]), "none", &[busy(2, 3, 1)]);
    line.station_takes(&callback(2, 3, 2, &[(1, 2)]), "none", &[done(2, 3, 2, 0)]);
    line.station_takes(&callback(2, 0, 4, &[(1, 1)]), "none", &[busy(2, 0, 4)]);
    line.station_takes(
        &callback(2, 0, 5, &[(1, 1), (2, 1)]),
        "none",
        &[busy(2, 0, 5)],
    );
    // by rising requester; the second drops nothing of what the first dropped
    let messages = [abort(2, 1), done(2, 0, 5, 6), done(2, 3, 1, 0)];
    line.call("abort 2", "aborted", &messages);
    line.call("begin 2", "begun 2", &[]);
    line.call("abort 2", "aborted", &[abort(2, 2)]);
}

/// Reading 20: an arriving page replaces values and marks, save for own values; 21 clears no mark.
#[test]
fn arriving_page() {
    let mut line = Line::fresh(LOCKING);
    line.run("begin 0; write 0 8 5; server 0; station 0; read 0 9");
    line.station_takes(&callback(0, 2, 1, &[(1, 4)]), "none", &[done(0, 2, 1, 0)]);
    line.call("read 0 10", "waits", &[read(0, 1, 2, 1)]);
    let arriving = page(16, 0, 1, 2, 1)
        .page_versions(&[(0, 3), (1, 3), (2, 3)])
        .unavailable(1)
        .values(&[(0, 70), (1, 71), (2, 72)]);
    line.station_takes(&arriving, "value 72", &[]);
    line.call("read 0 8", "value 5", &[]);
    line.call("read 0 9", "value 0", &[]);
    line.run("commit 0");
    line.station_takes(&committed(0, 1, 9), "committed 9", &[]);
    line.run("begin 0");
    line.call("read 0 9", "value 71", &[]);
    line.call("read 0 8", "waits", &[read(0, 1, 0, 2)]);
}

/// Reading 21, and "23 crosses a commit (ends in 22, never 21)".
#[test]
fn invalidated_with_a_commit_out() {
    let mut line = Line::fresh(MIXED);
    line.run("begin 1; read 1 8; server 1; station 1");
    let own = record(0, 1, 1).reads(&[(8, 0)]);
    line.call("commit 1", "waits", &[commit(2, &[], &own)]);
    line.run("begin 0; write 0 8 5; server 0; station 0; commit 0; server 0");
    line.call("station 1", "none", &[]);
    line.replies("purge 1 1", "refused 10");
    line.call("server 1", "none", &[aborted(1, 1, 2)]);
    line.call("station 1", "aborted 2", &[]);
    // marked, not dropped: the page is still cached
    line.call("purge 1 1", "purged", &[purge(1, 1)]);
}

/// Reading 21: the object of a waiting request is not used; nor is a neighbour of one that is.
#[test]
fn invalidated_while_requested() {
    let mut line = Line::fresh(VALIDATING);
    line.run("begin 1; read 1 8");
    line.station_takes(&invalidate(1, &[(1, 1)]), "none", &[]);
    line.run("server 1");
    line.call("station 1", "value 0", &[]);
    line.station_takes(&invalidate(1, &[(1, 254), (2, 255)]), "none", &[]);
    line.station_takes(&invalidate(1, &[(1, 1)]), "aborted 2", &[]);
}

/// Reading 22: versions after a commit, and in the next commit.
#[test]
fn versions() {
    let mut line = Line::fresh(VALIDATING);
    line.run("begin 1; write 1 8 5; server 1; station 1; read 1 16; server 1; station 1");
    let first = record(1, 1, 1).reads(&[(16, 0)]).writes(&[(8, 5)]);
    line.call("commit 1", "waits", &[commit(6, &[], &first)]);
    line.archives("server 1", "none", &[committed(1, 1, 1)], &[first]);
    line.call("station 1", "committed 1", &[]);
    line.call("begin 1", "begun 2", &[]);
    line.call("read 1 8", "value 5", &[]);
    line.call("read 1 16", "value 0", &[]);
    let second = Record {
        transaction: 2,
        ..record(2, 1, 1).reads(&[(8, 5), (16, 0)])
    };
    line.call("commit 1", "waits", &[commit(6, &[(0, 1)], &second)]);
    line.archives("server 1", "none", &[committed(1, 2, 2)], &[second]);
}

/// Reading 23: own last write, then the recorded read.
#[test]
fn own_values() {
    let mut line = Line::fresh(VALIDATING);
    line.run("begin 1; read 1 8; server 1; station 1; write 1 8 5; write 1 8 6; write 1 9 7");
    line.call("read 1 8", "value 6", &[]);
    line.call("read 1 9", "value 7", &[]);
    let record = record(0, 1, 1).reads(&[(8, 0)]).writes(&[(8, 6), (9, 7)]);
    line.call("commit 1", "waits", &[commit(2, &[], &record)]);
}

/// Reading 27 and the order of 7, 8, 9 and 11.
#[test]
fn owners_numbers() {
    let mut line = Line::fresh(LOCKING);
    line.replies("numbers 7 4294967294 0 0 0 0 0 0 4294967295", "ok");
    line.replies("numbers 7 1 0 0 0 0 0 0 4", "error");
    for call in ["read 0 8", "write 0 8 1", "commit 0", "abort 0"] {
        line.replies(call, "refused 8");
    }
    line.replies("begin 7", "refused 11");
    line.call("begin 0", "begun 4294967295", &[]);
    line.replies("begin 0", "refused 9");
    line.run("read 0 8");
    for call in ["begin 0", "read 0 8", "write 0 8 1", "commit 0", "abort 0"] {
        line.replies(call, "refused 7");
    }
    line.run("server 0; station 0; abort 0");
    line.replies("begin 0", "refused 11");
    line.run("begin 1; commit 1");
    let record = record(8, 1, 0);
    line.archives("server 1", "none", &[committed(1, 1, 8)], &[record]);
}

/// Reading 40 and cause 4 of a validating commit; an empty commit takes a number (reading 36).
#[test]
fn last_number() {
    let mut line = Line::fresh(MIXED);
    line.replies("numbers 4294967294 0 0 0 0 0 0 0 0", "ok");
    line.run("begin 0; begin 1; begin 2; write 2 8 5; server 2; station 2; commit 0");
    let last = record(u32::MAX, 0, 0);
    line.archives("server 0", "none", &[committed(0, 1, u32::MAX)], &[last]);
    line.run("commit 1; commit 2");
    line.call("server 1", "none", &[aborted(1, 1, 4)]);
    line.call("server 2", "none", &[aborted(2, 1, 4)]);
    line.call("station 2", "aborted 4", &[]);
    // its locks are free, its write is unavailable at 2
    line.run("begin 2");
    line.call("read 2 8", "waits", &[read(2, 1, 0, 2)]);
    line.call("server 2", "none", &[page(16, 2, 1, 0, 2)]);
}

/// Readings 29 and 33: a validating commit waits behind a lock on an object read, and its writes are unavailable.
#[test]
fn waiting_commit() {
    let mut line = Line::fresh(MIXED);
    line.run("begin 1; read 1 8; server 1; station 1; write 1 16 9; server 1; station 1");
    line.run("begin 3; read 3 9; server 3; station 3");
    line.run("begin 0; write 0 8 5; server 0; station 3; server 3");
    line.call("station 0", "written", &[]);
    let waiting = record(1, 1, 1).reads(&[(8, 0)]).writes(&[(16, 9)]);
    line.call("commit 1", "waits", &[commit(6, &[], &waiting)]);
    line.call("server 1", "none", &[]);
    line.run("read 3 17");
    line.call("server 3", "none", &[page(16, 3, 2, 1, 1).unavailable(1)]);
    line.call("station 3", "value 0", &[]);
    line.call("abort 0", "aborted", &[abort(0, 1)]);
    // 3 is listed for page 2 by now: it is called back before the install
    line.call("server 0", "none", &[callback(3, 1, 1, &[(2, 1)])]);
    line.call("station 3", "none", &[done(3, 1, 1, 0)]);
    line.archives("server 3", "none", &[committed(1, 1, 1)], &[waiting]);
}

/// Reading 29: versions are looked at anew while a commit waits.
#[test]
fn waiting_commit_goes_stale() {
    let mut line = Line::fresh(MIXED);
    line.run("begin 1; read 1 8; server 1; station 1");
    line.run("begin 3; read 3 9; server 3; station 3");
    line.run("begin 0; write 0 8 5; server 0; station 3; server 3; station 0");
    line.run("commit 1; server 1; commit 0");
    let installed = record(1, 0, 0).writes(&[(8, 5)]);
    let messages = [
        committed(0, 1, 1),
        invalidate(1, &[(1, 1)]),
        aborted(1, 1, 2),
    ];
    line.archives("server 0", "none", &messages, &[installed]);
}

/// Reading 36: a 5 answers no 20.
#[test]
fn purge_answers_nothing() {
    let mut line = Line::fresh(LOCKING);
    line.run(READ_8_BY_2);
    line.run("abort 2; server 2; begin 0; write 0 8 5; server 0");
    line.call("purge 2 1", "purged", &[purge(2, 1)]);
    line.call("server 2", "none", &[]);
    line.call("station 2", "none", &[done(2, 0, 1, 0)]);
    line.call("server 2", "none", &[page(18, 0, 1, 0, 1)]);
}

/// Reading 39: a 6 after the 7, a second 6, and those for another transaction do nothing.
#[test]
fn answers_to_no_callback() {
    let mut line = Line::fresh(LOCKING);
    line.run(READ_8_BY_2);
    line.run("begin 3; read 3 8; server 3; station 3; begin 0; write 0 8 5");
    let sent = [callback(2, 0, 1, &[(1, 1)]), callback(3, 0, 1, &[(1, 1)])];
    line.call("server 0", "none", &sent);
    line.server_takes(&done(2, 0, 2, 0), &[]);
    line.server_takes(&done(4, 0, 1, 0), &[]);
    line.server_takes(&done(3, 0, 1, 0), &[]);
    line.server_takes(&busy(3, 0, 1), &[]);
    // no edge to 3: its write waits, and no cycle is seen
    line.run("write 3 8 6");
    line.call("server 3", "none", &[]);
    // 2 still owes its 7; 0 then has the lock that 3 waits for
    line.server_takes(&done(2, 0, 1, 0), &[page(17, 0, 1, 0, 1)]);
}

/// "4 crosses 19", and the page is locked whole again before the 8 comes.
#[test]
fn written_set_of_the_transaction_before() {
    let mut line = Line::fresh(LOCKING);
    line.run("begin 0; write 0 8 5; server 0; station 0; begin 2; read 2 9");
    line.call("server 2", "none", &[de_escalate(0, 1, 1)]);
    line.run("abort 0; server 0; station 2; abort 2; server 2; purge 2 1; server 2");
    line.run("begin 0; write 0 8 6");
    line.call("server 0", "none", &[page(18, 0, 1, 0, 2)]);
    line.run("begin 3; read 3 9");
    line.call("server 3", "none", &[de_escalate(0, 1, 2)]);
    line.call("station 0", "none", &[written_set(0, 1, 1, 0)]);
    line.call("server 0", "none", &[]);
    line.call("station 0", "written", &[]);
    line.call("station 0", "none", &[written_set(0, 1, 2, 1)]);
    line.call("server 0", "none", &[page(16, 3, 1, 1, 1).unavailable(1)]);
}

/// Reading 38: an unanswered 20 gives no edge; its 6 then closes the cycle.
#[test]
fn edge_of_a_callback() {
    let mut line = Line::fresh(LOCKING);
    line.run(READ_8_BY_2);
    line.run("begin 0; write 0 8 5");
    line.call("server 0", "none", &[callback(2, 0, 1, &[(1, 1)])]);
    line.run("write 2 8 6");
    line.call("server 2", "none", &[]);
    line.call("station 2", "none", &[busy(2, 0, 1)]);
    line.call(
        "server 2",
        "none",
        &[aborted(0, 1, 1), page(18, 2, 1, 0, 1)],
    );
}

/// Reading 38: no edge to the holder of a whole lock; once it is locks on objects there is one.
#[test]
fn edge_to_a_whole_lock() {
    let mut line = Line::fresh(LOCKING);
    line.run("begin 0; write 0 8 5; server 0; station 0");
    line.run("begin 2; write 2 16 6; server 2; station 2");
    line.run("read 0 16; read 2 8");
    line.call("server 0", "none", &[de_escalate(2, 2, 1)]);
    line.call("server 2", "none", &[de_escalate(0, 1, 1)]);
    line.call("station 0", "none", &[written_set(0, 1, 1, 1)]);
    line.call("server 0", "none", &[]);
    line.call("station 2", "none", &[written_set(2, 2, 1, 1)]);
    line.call(
        "server 2",
        "none",
        &[aborted(2, 1, 1), page(16, 0, 2, 0, 1)],
    );
}

/// "18 ... no other station ... waits to write there; else the object (17)"; reading 33.
#[test]
fn whole_page_or_object() {
    let mut line = Line::fresh(LOCKING);
    line.run(READ_8_BY_2);
    line.run("abort 2; server 2; begin 0; write 0 8 5; begin 3; write 3 9 6");
    line.call("server 0", "none", &[callback(2, 0, 1, &[(1, 1)])]);
    line.call("server 3", "none", &[callback(2, 3, 1, &[(1, 2)])]);
    line.call("station 2", "none", &[done(2, 0, 1, 2)]);
    line.call("server 2", "none", &[page(17, 0, 1, 0, 1).unavailable(2)]);
    line.call("station 2", "none", &[done(2, 3, 1, 0)]);
    line.call("server 2", "none", &[page(17, 3, 1, 1, 1).unavailable(1)]);
}

/// "a written object locked by another ... cause 3", with a lock on the object alone.
#[test]
fn commit_on_a_locked_object() {
    let mut line = Line::fresh(MIXED);
    line.run("begin 2; read 2 9; server 2; station 2");
    line.run("begin 1; write 1 8 7; server 1; station 1");
    line.run("begin 0; write 0 8 5; server 0; station 2; server 2; commit 1");
    line.call("server 1", "none", &[aborted(1, 1, 3)]);
}

/// Reading 31: a writer is blocked by an earlier waiter that only reads the object.
#[test]
fn blocked_by_an_earlier_reader() {
    let mut line = Line::fresh(MIXED);
    line.run("begin 2; read 2 9; server 2; station 2");
    line.run("begin 1; read 1 8; server 1; station 1; read 1 16; server 1; station 1");
    line.run("begin 0; write 0 8 5; server 0; station 2; server 2; station 0");
    line.run("commit 1");
    line.call("server 1", "none", &[]);
    line.run("begin 3; write 3 16 6");
    line.call("server 3", "none", &[]);
    line.run("begin 4; read 4 16");
    // behind 3, that is to write it
    line.call("server 4", "none", &[]);
    line.run("abort 0");
    let reads = record(1, 1, 1).reads(&[(8, 0), (16, 0)]);
    let messages = [
        committed(1, 1, 1),
        page(18, 3, 2, 0, 1),
        // the whole lock is asked for by 4 in the same pass
        de_escalate(3, 2, 1),
    ];
    line.archives("server 0", "none", &messages, &[reads]);
}

/// Reading 34: only the requested object is left out of the unavailable set.
#[test]
fn requested_object_is_available() {
    let mut line = Line::fresh(LOCKING);
    line.run("begin 2; read 2 9; server 2; station 2");
    line.run("begin 0; write 0 8 5; server 0; station 2; server 2; station 0");
    line.run("begin 3; read 3 8; server 3; begin 4; write 4 8 6; server 4");
    line.run("begin 5; write 5 10 6; server 5");
    line.run("abort 0");
    let messages = [
        page(16, 3, 1, 0, 1).unavailable(4),
        callback(0, 4, 1, &[(1, 1)]),
        callback(2, 4, 1, &[(1, 1)]),
        callback(3, 4, 1, &[(1, 1)]),
    ];
    line.call("server 0", "none", &messages);
}

/// "A listed copy remains listed after 23 unless purged."
#[test]
fn invalidated_again() {
    let mut line = Line::fresh(MIXED);
    line.run("begin 1; read 1 8; server 1; station 1");
    line.run("begin 0; write 0 8 5; server 0; station 0; write 0 16 5; server 0; station 0");
    let first = record(1, 0, 0).writes(&[(8, 5), (16, 5)]);
    line.run("commit 0");
    let messages = [committed(0, 1, 1), invalidate(1, &[(1, 1), (2, 1)])];
    line.archives("server 0", "none", &messages, &[first]);
    line.run("station 0; begin 0; write 0 8 6; server 0; station 0; commit 0");
    let second = Record {
        transaction: 2,
        ..record(2, 0, 0).writes(&[(8, 6)])
    };
    let messages = [committed(0, 2, 2), invalidate(1, &[(1, 1)])];
    line.archives("server 0", "none", &messages, &[second]);
    line.run("station 1; station 1; purge 1 1; server 1");
    line.run("station 0; begin 0; write 0 8 7; server 0; station 0; commit 0");
    let third = Record {
        transaction: 3,
        ..record(3, 0, 0).writes(&[(8, 7)])
    };
    line.archives("server 0", "none", &[committed(0, 3, 3)], &[third]);
}

/// "send 19, once for each 18, pages rising": one step asks for all 32 pages.
#[test]
fn all_pages_asked_for() {
    let mut line = Line::fresh(MIXED);
    line.run("begin 0; begin 1");
    for first in (0..256).step_by(8) {
        line.run(&format!("write 0 {first} 5; server 0; station 0"));
        line.run(&format!("read 1 {}; server 1; station 1", first + 1));
    }
    line.run("commit 1");
    let asked: Vec<Message> = (0..32).map(|page| de_escalate(0, page, 1)).collect();
    line.call("server 1", "none", &asked);
    for page in 0..32 {
        line.call("station 0", "none", &[written_set(0, page, 1, 1)]);
    }
    for _ in 0..31 {
        line.call("server 0", "none", &[]);
    }
    let reads: Vec<(u8, u64)> = (0..32).map(|page| (8 * page + 1, 0)).collect();
    let record = record(1, 1, 1).reads(&reads);
    line.archives("server 0", "none", &[committed(1, 1, 1)], &[record]);
}

/// An access of station 0, and what it waits for.
fn served(line: &mut Line, command: &str) {
    let reply = line.reply(command);
    assert!(reply.starts_with("ok"), "{command}: {reply}");
    if reply.contains("waits") {
        line.run("server 0; station 0");
    }
}

/// Document 02, wish 1: 48 reads and 48 writes pass, the next of either is 15, local or not; what was read or written
/// before is no one more. 7 and 8 come first, and a read and a write that wait count.
#[test]
fn limit() {
    for kinds in [LOCKING, "10000000"] {
        let mut line = Line::fresh(kinds);
        line.replies("read 0 8", "refused 8");
        line.run("begin 0");
        for address in 0..47 {
            served(&mut line, &format!("read 0 {address}"));
            served(&mut line, &format!("write 0 {address} 5"));
        }
        line.run("read 0 56");
        line.replies("read 0 57", "refused 7");
        line.run("server 0; station 0");
        for beyond in ["read 0 57", "read 0 64", "read 0 255"] {
            line.replies(beyond, "refused 15");
        }
        line.run("write 0 64 6");
        line.replies("write 0 65 6", "refused 7");
        line.run("server 0; station 0");
        for beyond in ["write 0 65 6", "write 0 57 6", "write 0 72 6"] {
            line.replies(beyond, "refused 15");
        }
        line.call("read 0 56", "value 0", &[]);
        line.call("read 0 64", "value 6", &[]);
        line.call("write 0 64 7", "written", &[]);
        line.call("read 0 64", "value 7", &[]);
        line.run("commit 0; server 0");
        line.call("station 0", "committed 1", &[]);
    }
}

/// Seven commits that waited for one lock are installed in one step, in the order of their arrival.
#[test]
fn seven_installs_in_one_step() {
    let mut line = Line::fresh("01111111");
    line.run("begin 0; write 0 8 5; server 0; station 0");
    for s in 1..8 {
        line.run(&format!("begin {s}; read {s} 8; server {s}; station {s}"));
        line.run(&format!("write {s} {} 9; server {s}; station {s}", 16 * s));
    }
    for s in (1..8).rev() {
        line.run(&format!("commit {s}; server {s}"));
    }
    line.call("station 0", "none", &[written_set(0, 1, 1, 1)]);
    line.call("server 0", "none", &[]);
    line.call("abort 0", "aborted", &[abort(0, 1)]);
    let order = || (1..8).rev().zip(1..);
    let messages: Vec<Message> = order().map(|(s, n)| committed(s, 1, n)).collect();
    let written = |(s, n)| record(n, s, 1).reads(&[(8, 0)]).writes(&[(16 * s, 9)]);
    let records: Vec<Record> = order().map(written).collect();
    line.archives("server 0", "none", &messages, &records);
}

/// A malformed command answers `error`.
#[test]
fn malformed() {
    let mut line = Line::fresh(LOCKING);
    for command in [
        "",
        "begin",
        "begin 8",
        "begin 0 0",
        "read 0 256",
        "read 0 -1",
        "write 0 8",
        "write 0 8 18446744073709551616",
        "write 0 8 +1",
        "fresh 0000000",
        "fresh 00000003",
        "server x",
        "serverraw",
        "serverraw 0",
        "serverraw 0g",
        "stationraw 0",
        "numbers 0 0",
        "nothing",
    ] {
        line.replies(command, "error");
    }
    line.replies("numbers 0 0 0 0 0 0 0 0 0", "ok");
    line.replies("serverraw -", "refused 2");
    line.replies("stationraw 3 -", "refused 2");
}
