//! Document 01's line examples C1 to C9 as scripts: locking 0 and 2, validating 1.

#[allow(dead_code)]
mod line_text;

use line_text::*;

const KINDS: &str = "01000000";

/// Address 8 is object 0 of page 1, 9 its object 1.
const PAGE_1: u32 = 1 << 1;

/// "C1 fresh, 0 reads 8: 1, 16, value 0."
fn c1() -> Line {
    let mut line = Line::fresh(KINDS);
    line.call("begin 0", "begun 1", &[]);
    line.call("read 0 8", "waits", &[read(0, 1, 0, 1)]);
    line.call("server 0", "none", &[page(16, 0, 1, 0, 1)]);
    line.call("station 0", "value 0", &[]);
    line
}

/// "C2 then 0 writes 8, nobody else listed: 18."
fn c2() -> Line {
    let mut line = c1();
    line.call("write 0 8 5", "waits", &[write(0, 1, 0, 1)]);
    line.call("server 0", "none", &[page(18, 0, 1, 0, 1)]);
    line.call("station 0", "written", &[]);
    line
}

#[test]
fn c1_read() {
    let mut line = c1();
    // the second time locally
    line.call("read 0 8", "value 0", &[]);
    line.call("read 0 15", "value 0", &[]);
    line.replies("server 0", "empty");
    line.replies("station 0", "empty");
}

#[test]
fn c2_whole_page() {
    let mut line = c2();
    line.call("read 0 8", "value 5", &[]);
    line.call("write 0 9 6", "written", &[]);
    let record = record(1, 0, 0).reads(&[(8, 0)]).writes(&[(8, 5), (9, 6)]);
    line.call("commit 0", "waits", &[commit(PAGE_1, &[], &record)]);
    line.archives("server 0", "none", &[committed(0, 1, 1)], &[record]);
    line.call("station 0", "committed 1", &[]);
    line.call("begin 0", "begun 2", &[]);
    line.call("read 0 8", "value 5", &[]);
}

/// Station 2 has read `address`, and its transaction is open or over.
fn with_2_reading(address: u8, over: bool) -> Line {
    let mut line = c1();
    line.call("begin 2", "begun 1", &[]);
    let object = address - 8;
    let command = format!("read 2 {address}");
    line.call(&command, "waits", &[read(2, 1, object, 1)]);
    line.call("server 2", "none", &[page(16, 2, 1, object, 1)]);
    line.call("station 2", "value 0", &[]);
    if over {
        line.call("abort 2", "aborted", &[abort(2, 1)]);
        line.call("server 2", "none", &[]);
    }
    line.call("write 0 8 5", "waits", &[write(0, 1, 0, 1)]);
    line.call("server 0", "none", &[callback(2, 0, 1, &[(1, 1)])]);
    line
}

/// "C3 as C2, page 1 unused at 2: 20, 7 dropping page 1, 18."
#[test]
fn c3_unused_page() {
    let mut line = with_2_reading(8, true);
    line.call("station 2", "none", &[done(2, 0, 1, PAGE_1)]);
    line.call("server 2", "none", &[page(18, 0, 1, 0, 1)]);
    line.call("station 0", "written", &[]);
}

/// "C4 2 has read 9: 7 dropping nothing, 17."
#[test]
fn c4_other_object() {
    let mut line = with_2_reading(9, false);
    line.call("station 2", "none", &[done(2, 0, 1, 0)]);
    line.call("server 2", "none", &[page(17, 0, 1, 0, 1)]);
    line.call("station 0", "written", &[]);
    // the named object is unavailable at 2, the others are not
    line.call("read 2 10", "value 0", &[]);
    line.call("read 2 8", "waits", &[read(2, 1, 0, 1)]);
    line.call("server 2", "none", &[]);
}

/// "C5 2 has read 8: 6; 0 waits until 2 ends."
#[test]
fn c5_busy() {
    let mut line = with_2_reading(8, false);
    line.call("station 2", "none", &[busy(2, 0, 1)]);
    line.call("server 2", "none", &[]);
    line.replies("station 0", "empty");
    line.replies("read 0 9", "refused 7");
    let messages = [abort(2, 1), done(2, 0, 1, PAGE_1)];
    line.call("abort 2", "aborted", &messages);
    line.call("server 2", "none", &[]);
    line.call("server 2", "none", &[page(18, 0, 1, 0, 1)]);
    line.call("station 0", "written", &[]);
}

/// C5 with a commit of 2 in place of its abort.
#[test]
fn c5_busy_until_committed() {
    let mut line = with_2_reading(8, false);
    let record = record(1, 2, 0).reads(&[(8, 0)]);
    line.call("commit 2", "waits", &[commit(PAGE_1, &[], &record)]);
    line.call("station 2", "none", &[busy(2, 0, 1)]);
    line.archives("server 2", "none", &[committed(2, 1, 1)], &[record]);
    line.call("server 2", "none", &[]);
    line.call("station 2", "committed 1", &[done(2, 0, 1, PAGE_1)]);
    line.call("server 2", "none", &[page(18, 0, 1, 0, 1)]);
    line.call("station 0", "written", &[]);
}

/// "C6 0, then 2, read 8, and both write it: 2 gets cause 1."
#[test]
fn c6_cycle() {
    let mut line = with_2_reading(8, false);
    line.call("station 2", "none", &[busy(2, 0, 1)]);
    line.call("server 2", "none", &[]);
    line.call("write 2 8 7", "waits", &[write(2, 1, 0, 1)]);
    line.call("server 2", "none", &[aborted(2, 1, 1)]);
    line.call("station 2", "aborted 1", &[done(2, 0, 1, PAGE_1)]);
    line.call("server 2", "none", &[page(18, 0, 1, 0, 1)]);
    line.call("station 0", "written", &[]);
}

/// Document 02, wish 2: the loser of C6 repeats behind a new transaction of 0, and wins.
#[test]
fn c6_again() {
    let mut line = with_2_reading(8, false);
    line.run("station 2; server 2; write 2 8 7; server 2; station 2; server 2; station 0");
    line.run("commit 0; server 0; station 0; begin 0; read 0 16; server 0; station 0; read 0 8");
    line.run("begin 2; read 2 8; server 2; station 2");
    line.call("write 0 8 6", "waits", &[write(0, 1, 0, 2)]);
    line.call("write 2 8 7", "waits", &[write(2, 1, 0, 2)]);
    line.call("server 0", "none", &[callback(2, 0, 2, &[(1, 1)])]);
    line.call("server 2", "none", &[]);
    line.call("station 2", "none", &[busy(2, 0, 2)]);
    let messages = [aborted(0, 2, 1), callback(0, 2, 2, &[(1, 1)])];
    line.call("server 2", "none", &messages);
    line.call("station 0", "aborted 1", &[]);
    line.call("station 0", "none", &[done(0, 2, 2, PAGE_1)]);
    line.run("server 0");
    line.call("station 2", "written", &[]);
}

/// C6 with the younger one's write first.
#[test]
fn c6_cycle_other_way() {
    let mut line = c1();
    line.run("begin 2; read 2 8; server 2; station 2");
    line.call("write 2 8 7", "waits", &[write(2, 1, 0, 1)]);
    line.call("server 2", "none", &[callback(0, 2, 1, &[(1, 1)])]);
    line.call("station 0", "none", &[busy(0, 2, 1)]);
    line.call("server 0", "none", &[]);
    line.call("write 0 8 5", "waits", &[write(0, 1, 0, 1)]);
    // 2's request is gone with it, so 0's is looked at: 2 is listed still
    let messages = [aborted(2, 1, 1), callback(2, 0, 1, &[(1, 1)])];
    line.call("server 0", "none", &messages);
    line.call("station 2", "aborted 1", &[]);
    line.call("station 2", "none", &[done(2, 0, 1, PAGE_1)]);
    line.call("server 2", "none", &[page(18, 0, 1, 0, 1)]);
    line.call("station 0", "written", &[]);
}

/// "C7 1 reads 8, 0 commits 8: 1 gets 23 and ends, cause 2."
#[test]
fn c7_invalidated() {
    let mut line = c2();
    line.call("begin 1", "begun 1", &[]);
    line.call("read 1 8", "waits", &[read(1, 1, 0, 1)]);
    line.call("server 1", "none", &[page(16, 1, 1, 0, 1)]);
    line.call("station 1", "value 0", &[]);
    let record = record(1, 0, 0).reads(&[(8, 0)]).writes(&[(8, 5)]);
    line.call("commit 0", "waits", &[commit(PAGE_1, &[], &record)]);
    let messages = [committed(0, 1, 1), invalidate(1, &[(1, 1)])];
    line.archives("server 0", "none", &messages, &[record]);
    line.call("station 1", "aborted 2", &[]);
    line.replies("read 1 8", "refused 8");
    line.call("begin 1", "begun 2", &[]);
    line.call("read 1 8", "waits", &[read(1, 1, 0, 2)]);
    let fetched = page(16, 1, 1, 0, 2)
        .page_versions(&[(0, 1)])
        .values(&[(0, 5)]);
    line.call("server 1", "none", &[fetched]);
    line.call("station 1", "value 5", &[]);
}

/// Station 1 has written 9 in its copy of page 1 and commits: 0, which holds the page whole, is asked for it.
fn asked_for_page(line: &mut Line) -> Record {
    line.call("begin 1", "begun 1", &[]);
    line.call("write 1 9 6", "waits", &[read(1, 1, 1, 1)]);
    line.call("server 1", "none", &[page(16, 1, 1, 1, 1)]);
    line.call("station 1", "written", &[]);
    let record = record(1, 1, 1).writes(&[(9, 6)]);
    line.call("commit 1", "waits", &[commit(PAGE_1, &[], &record)]);
    line.call("server 1", "none", &[de_escalate(0, 1, 1)]);
    record
}

/// "C8 now ends in a commit when 0 wrote 8 alone and station 0 doesn't hold 9 in use."
#[test]
fn c8_looked_at() {
    let mut line = c2();
    let record = asked_for_page(&mut line);
    line.call("station 0", "none", &[written_set(0, 1, 1, 1)]);
    line.call("server 0", "none", &[callback(0, 1, 1, &[(1, 2)])]);
    line.call("station 0", "none", &[done(0, 1, 1, 0)]);
    line.archives("server 0", "none", &[committed(1, 1, 1)], &[record]);
    line.call("station 1", "committed 1", &[]);
    // 0 still has its lock on 8, and not on 9
    line.call("write 0 8 6", "written", &[]);
    line.call("write 0 9 6", "waits", &[write(0, 1, 1, 1)]);
}

/// 0 has read 9: its callback is kept until 0 ends.
fn c8_in_use() -> (Line, Record) {
    let mut line = c2();
    line.call("read 0 9", "value 0", &[]);
    let record = asked_for_page(&mut line);
    line.call("station 0", "none", &[written_set(0, 1, 1, 1)]);
    line.call("server 0", "none", &[callback(0, 1, 1, &[(1, 2)])]);
    line.call("station 0", "none", &[busy(0, 1, 1)]);
    line.call("server 0", "none", &[]);
    (line, record)
}

#[test]
fn c8_in_use_aborts() {
    let (mut line, record) = c8_in_use();
    line.call("abort 0", "aborted", &[abort(0, 1), done(0, 1, 1, PAGE_1)]);
    line.call("server 0", "none", &[]);
    line.archives("server 0", "none", &[committed(1, 1, 1)], &[record]);
    line.call("station 1", "committed 1", &[]);
}

/// Versions are those of objects: 0's commit of 8 leaves 1's of 9 as it was.
#[test]
fn c8_in_use_commits() {
    let (mut line, waiting) = c8_in_use();
    let first = record(1, 0, 0).reads(&[(8, 0), (9, 0)]).writes(&[(8, 5)]);
    line.call("commit 0", "waits", &[commit(PAGE_1, &[], &first)]);
    let messages = [committed(0, 1, 1), invalidate(1, &[(1, 1)])];
    line.archives("server 0", "none", &messages, &[first]);
    line.call("station 0", "committed 1", &[done(0, 1, 1, PAGE_1)]);
    let second = Record {
        commit: 2,
        ..waiting
    };
    line.archives("server 0", "none", &[committed(1, 1, 2)], &[second]);
}

/// 0 has written 9: cause 3 once its 8 says so.
#[test]
fn c8_written() {
    let mut line = c2();
    line.call("write 0 9 7", "written", &[]);
    asked_for_page(&mut line);
    line.call("station 0", "none", &[written_set(0, 1, 1, 3)]);
    line.call("server 0", "none", &[aborted(1, 1, 3)]);
    line.call("station 1", "aborted 3", &[]);
    // a validating station drops its written pages
    line.call("begin 1", "begun 2", &[]);
    line.call("read 1 9", "waits", &[read(1, 1, 1, 2)]);
}

/// "C9 0 wrote 8 under 18, 2 reads 9: 19, 8 with set 1, 16 with unavailable set 1."
#[test]
fn c9_de_escalation() {
    let mut line = c2();
    line.call("begin 2", "begun 1", &[]);
    line.call("read 2 9", "waits", &[read(2, 1, 1, 1)]);
    line.call("server 2", "none", &[de_escalate(0, 1, 1)]);
    line.call("station 0", "none", &[written_set(0, 1, 1, 1)]);
    line.call("server 0", "none", &[page(16, 2, 1, 1, 1).unavailable(1)]);
    line.call("station 2", "value 0", &[]);
    // what is left at 0 is a lock on 8
    line.call("write 0 8 6", "written", &[]);
    line.call("write 0 10 6", "waits", &[write(0, 1, 2, 1)]);
    line.call("server 0", "none", &[callback(2, 0, 1, &[(1, 4)])]);
}

/// Document 02, wish 6: stations 1 and 3 are validating heads that count on objects of page 1.
const HEADS: &str = "01010000";

/// Station `head` has read the object as 0 and counts 1 there; its record.
fn counts(line: &mut Line, head: u8, object: u8) -> Record {
    let address = 8 + object;
    line.call(&format!("begin {head}"), "begun 1", &[]);
    let request = read(head, 1, object, 1);
    line.call(&format!("read {head} {address}"), "waits", &[request]);
    let fetched = page(16, head, 1, object, 1);
    line.call(&format!("server {head}"), "none", &[fetched]);
    line.call(&format!("station {head}"), "value 0", &[]);
    line.call(&format!("write {head} {address} 1"), "written", &[]);
    record(0, head, 1)
        .reads(&[(address, 0)])
        .writes(&[(address, 1)])
}

fn commits(line: &mut Line, head: u8, record: &Record) {
    let message = commit(PAGE_1, &[], record);
    line.call(&format!("commit {head}"), "waits", &[message]);
}

/// 1 counts on 8 and 3 on 9.
fn neighbours() -> Line {
    let mut line = Line::fresh(HEADS);
    let first = counts(&mut line, 1, 0);
    let second = counts(&mut line, 3, 1);
    commits(&mut line, 1, &first);
    let messages = [committed(1, 1, 1), invalidate(3, &[(1, 1)])];
    let archived = Record { commit: 1, ..first };
    line.archives("server 1", "none", &messages, &[archived]);
    line.call("station 3", "none", &[]);
    commits(&mut line, 3, &second);
    let messages = [committed(3, 1, 2), invalidate(1, &[(1, 2)])];
    let archived = Record {
        commit: 2,
        ..second
    };
    line.archives("server 3", "none", &messages, &[archived]);
    line.call("station 1", "committed 1", &[]);
    line.call("station 3", "committed 2", &[]);
    line.call("station 1", "none", &[]);
    line
}

/// "It writes locally only on available objects."
#[test]
fn neighbours_commit() {
    let mut line = neighbours();
    line.call("begin 3", "begun 2", &[]);
    line.call("write 3 9 2", "written", &[]);
    line.call("write 3 8 2", "waits", &[read(3, 1, 0, 2)]);
}

/// A page that arrives over objects already read: each entry carries its own object's version.
#[test]
fn arrives_over_a_read() {
    let mut line = neighbours();
    line.call("begin 1", "begun 2", &[]);
    line.call("read 1 8", "value 1", &[]);
    line.call("read 1 9", "waits", &[read(1, 1, 1, 2)]);
    let fetched = page(16, 1, 1, 1, 2)
        .page_versions(&[(0, 1), (1, 2)])
        .values(&[(0, 1), (1, 1)]);
    line.call("server 1", "none", &[fetched]);
    line.call("station 1", "value 1", &[]);
    line.call("write 1 8 2", "written", &[]);
    let both = Record {
        transaction: 2,
        ..record(0, 1, 1).reads(&[(8, 1), (9, 1)]).writes(&[(8, 2)])
    };
    let versions = [(0, 1), (1, 2), (2, 1)];
    line.call("commit 1", "waits", &[commit(PAGE_1, &versions, &both)]);
    let messages = [committed(1, 2, 3), invalidate(3, &[(1, 1)])];
    let archived = Record { commit: 3, ..both };
    line.archives("server 1", "none", &messages, &[archived]);
}

/// "Cause 2 is given for a used object with another version."
#[test]
fn same_object() {
    let mut line = Line::fresh(HEADS);
    let first = counts(&mut line, 1, 0);
    let second = counts(&mut line, 3, 0);
    commits(&mut line, 1, &first);
    commits(&mut line, 3, &second);
    let messages = [committed(1, 1, 1), invalidate(3, &[(1, 1)])];
    let archived = Record { commit: 1, ..first };
    line.archives("server 1", "none", &messages, &[archived]);
    line.call("server 3", "none", &[aborted(3, 1, 2)]);
    line.call("station 3", "none", &[]);
    line.call("station 3", "aborted 2", &[]);
}

/// A 23 that names a used and an unused object.
#[test]
fn used_and_unused() {
    let mut line = Line::fresh(HEADS);
    let first = counts(&mut line, 1, 0).writes(&[(8, 1), (9, 1)]);
    line.call("write 1 9 1", "written", &[]);
    counts(&mut line, 3, 1);
    commits(&mut line, 1, &first);
    let messages = [committed(1, 1, 1), invalidate(3, &[(1, 3)])];
    let archived = Record { commit: 1, ..first };
    line.archives("server 1", "none", &messages, &[archived]);
    line.call("station 3", "aborted 2", &[]);
}

/// "The station marks those objects unavailable, and its transaction, if no commit is out, ends if it used one."
#[test]
fn marked_with_a_commit_out() {
    let mut line = Line::fresh(HEADS);
    let first = counts(&mut line, 1, 0);
    let second = counts(&mut line, 3, 1);
    commits(&mut line, 1, &first);
    let messages = [committed(1, 1, 1), invalidate(3, &[(1, 1)])];
    let archived = Record { commit: 1, ..first };
    line.archives("server 1", "none", &messages, &[archived]);
    commits(&mut line, 3, &second);
    line.call("station 3", "none", &[]);
    let messages = [committed(3, 1, 2), invalidate(1, &[(1, 2)])];
    let archived = Record {
        commit: 2,
        ..second
    };
    line.archives("server 3", "none", &messages, &[archived]);
    line.call("station 3", "committed 2", &[]);
    line.call("begin 3", "begun 2", &[]);
    line.call("read 3 9", "value 1", &[]);
    line.call("read 3 8", "waits", &[read(3, 1, 0, 2)]);
}

/// Used is what was written too, also unread.
#[test]
fn written_unread() {
    let mut line = Line::fresh(HEADS);
    line.call("begin 1", "begun 1", &[]);
    line.call("write 1 8 7", "waits", &[read(1, 1, 0, 1)]);
    line.call("server 1", "none", &[page(16, 1, 1, 0, 1)]);
    line.call("station 1", "written", &[]);
    let unread = record(0, 1, 1).writes(&[(8, 7)]);
    line.call("commit 1", "waits", &[commit(PAGE_1, &[], &unread)]);
    let first = counts(&mut line, 3, 0);
    commits(&mut line, 3, &first);
    let messages = [committed(3, 1, 1), invalidate(1, &[(1, 1)])];
    let archived = Record { commit: 1, ..first };
    line.archives("server 3", "none", &messages, &[archived]);
    line.call("server 1", "none", &[aborted(1, 1, 2)]);
}
