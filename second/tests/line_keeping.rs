//! Document 02, wish 10, "Heads that keep the page", as scripts: cases, readings 23 to 28, numbers. Stations 0 and 3 are keeping, 1
//! is validating, the others are locking.

#[allow(dead_code)]
mod line_text;

use line_text::*;
use second::line::message::LENGTH;
use second::line::places::Place;
use second::line::scripts;
use second::line::server::state::{encode, Field};
use second::line::world::World;
use second::line::Kind;

const KINDS: &str = "21020000";
const KEEPING: u8 = 2;
const PAGE_1: u32 = 1 << 1;

/// 0 asks for 8, writes it and commits: page 1 stays locked whole.
const KEPT: &str = "begin 0; write 0 8 1; server 0; station 0; commit 0; server 0; station 0";

fn kept() -> Line {
    let mut line = Line::fresh(KINDS);
    line.run(KEPT);
    line
}

/// A record of transaction `transaction` of station 0.
fn own(commit: u32, transaction: u32) -> Record {
    Record {
        transaction,
        ..record(commit, 0, KEEPING)
    }
}

/// Page 1 as 0's first commit left it: 8 has value and version 1.
fn left(message: Message) -> Message {
    message.values(&[(0, 1)]).page_versions(&[(0, 1)])
}

/// "A head alone on its counters": ten commits, one write request.
#[test]
fn ten_commits_with_one_request() {
    let mut line = Line::fresh(KINDS);
    line.run("begin 0");
    line.call("read 0 8", "waits", &[read(0, 1, 0, 1)]);
    line.call("server 0", "none", &[page(16, 0, 1, 0, 1)]);
    line.call("station 0", "value 0", &[]);
    line.call("write 0 8 1", "waits", &[write(0, 1, 0, 1)]);
    line.call("server 0", "none", &[page(18, 0, 1, 0, 1)]);
    line.call("station 0", "written", &[]);
    for number in 1..=10 {
        let before = u64::from(number) - 1;
        if number > 1 {
            line.call("begin 0", &format!("begun {number}"), &[]);
            line.call("read 0 8", &format!("value {before}"), &[]);
            line.call(&format!("write 0 8 {number}"), "written", &[]);
        }
        let record = own(number, number).reads(&[(8, before)]);
        let record = record.writes(&[(8, before + 1)]);
        line.call("commit 0", "waits", &[commit(PAGE_1, &[], &record)]);
        let told = [committed(0, number, number)];
        line.archives("server 0", "none", &told, &[record]);
        line.call("station 0", &format!("committed {number}"), &[]);
    }
}

/// How 19 finds the head: between two transactions, in one, or with its commit out.
#[derive(Clone, Copy, PartialEq)]
enum Head {
    Idle,
    Open,
    Committing,
}

const HEADS: [Head; 3] = [Head::Idle, Head::Open, Head::Committing];

/// The head has page 1, and 8 written in its second transaction unless it is idle.
fn head(head: Head) -> Line {
    let mut line = kept();
    if head != Head::Idle {
        line.run("begin 0");
        line.call("write 0 8 2", "written", &[]);
    }
    if head == Head::Committing {
        line.run("commit 0");
    }
    line
}

/// The head gives its page up to the other's request: "the station answers 8 with its open transaction's written set", which
/// "names the open transaction, else the 18's"; what is sent when it is heeded. Values and versions of 8 are told behind it.
fn gives_up(line: &mut Line, head: Head, then: &[Message]) {
    let answer = match head {
        Head::Idle => written_set(0, 1, 1, 0),
        Head::Open | Head::Committing => written_set(0, 1, 2, 1),
    };
    line.call("station 0", "none", &[answer]);
    if head == Head::Committing {
        // its 3 is ahead of the 8, which is then of a finished transaction and locks nothing
        let record = own(2, 2).writes(&[(8, 2)]);
        line.archives("server 0", "none", &[committed(0, 2, 2)], &[record]);
    }
    line.call("server 0", "none", then);
    if head == Head::Committing {
        line.call("station 0", "committed 2", &[]);
    }
}

/// Page 1 to another behind that: what is locked is unavailable, what is committed is shown.
fn shown(head: Head, message: Message) -> Message {
    match head {
        Head::Idle => left(message),
        Head::Open => left(message).unavailable(1),
        Head::Committing => message.values(&[(0, 2)]).page_versions(&[(0, 2)]),
    }
}

/// The head's next write asks again; an open one's commit is taken.
fn goes_on(line: &mut Line, head: Head) {
    if head == Head::Open {
        let record = own(2, 2).writes(&[(8, 2)]);
        line.call("commit 0", "waits", &[commit(PAGE_1, &[], &record)]);
        line.archives("server 0", "none", &[committed(0, 2, 2)], &[record]);
        line.call("station 0", "committed 2", &[]);
    }
    let transaction = if head == Head::Idle { 2 } else { 3 };
    line.call("begin 0", &format!("begun {transaction}"), &[]);
    line.call("write 0 8 9", "waits", &[write(0, 1, 0, transaction)]);
}

#[test]
fn another_reads() {
    for state in HEADS {
        let mut line = head(state);
        line.run("begin 2; read 2 9");
        line.call("server 2", "none", &[de_escalate(0, 1, 1)]);
        let to_2 = shown(state, page(16, 2, 1, 1, 1));
        gives_up(&mut line, state, &[to_2]);
        line.call("station 2", "value 0", &[]);
        goes_on(&mut line, state);
    }
}

#[test]
fn another_writes() {
    for state in HEADS {
        let mut line = head(state);
        line.run("begin 2; write 2 9 5");
        line.call("server 2", "none", &[de_escalate(0, 1, 1)]);
        gives_up(&mut line, state, &[callback(0, 2, 1, &[(1, 2)])]);
        // an open head has used the page, and keeps its copy and its lock on 8
        let (dropped, grant) = match state {
            Head::Open => (0, 17),
            Head::Idle | Head::Committing => (PAGE_1, 18),
        };
        line.call("station 0", "none", &[done(0, 2, 1, dropped)]);
        let to_2 = shown(state, page(grant, 2, 1, 0, 1));
        line.call("server 0", "none", &[to_2]);
        line.call("station 2", "written", &[]);
        goes_on(&mut line, state);
    }
}

/// A validating station reads and writes 9 without a 19: only its commit waits.
fn with_a_commit_of_1(state: Head) -> Line {
    let mut line = head(state);
    line.run("begin 1; read 1 9");
    // "A validating read ... do not wait, so bring no 19"
    line.call("server 1", "none", &[left(page(16, 1, 1, 1, 1))]);
    line.run("station 1; write 1 9 7; commit 1");
    line.call("server 1", "none", &[de_escalate(0, 1, 1)]);
    line
}

#[test]
fn another_commits() {
    for state in [Head::Idle, Head::Open] {
        let mut line = with_a_commit_of_1(state);
        gives_up(&mut line, state, &[callback(0, 1, 1, &[(1, 2)])]);
        let dropped = if state == Head::Idle { PAGE_1 } else { 0 };
        line.call("station 0", "none", &[done(0, 1, 1, dropped)]);
        let record = record(2, 1, 1).reads(&[(9, 0)]).writes(&[(9, 7)]);
        line.archives("server 0", "none", &[committed(1, 1, 2)], &[record]);
        line.call("station 1", "committed 2", &[]);
    }
}

/// The head's commit is ahead of its 8, and goes before the other's.
#[test]
fn another_commits_behind_the_heads() {
    let mut line = with_a_commit_of_1(Head::Committing);
    line.call("station 0", "none", &[written_set(0, 1, 2, 1)]);
    let heads = own(2, 2).writes(&[(8, 2)]);
    let told = [committed(0, 2, 2), invalidate(1, &[(1, 1)])];
    line.archives("server 0", "none", &told, &[heads]);
    line.call("server 0", "none", &[callback(0, 1, 1, &[(1, 2)])]);
    line.call("station 0", "committed 2", &[]);
    line.call("station 0", "none", &[done(0, 1, 1, PAGE_1)]);
    let record = record(3, 1, 1).reads(&[(9, 0)]).writes(&[(9, 7)]);
    line.archives("server 0", "none", &[committed(1, 1, 3)], &[record]);
}

/// Cause 3 where the 8 names what the commit writes.
#[test]
fn another_commits_what_is_written() {
    let mut line = kept();
    line.run("begin 0; write 0 9 2; begin 1; read 1 9; server 1; station 1; write 1 9 7; commit 1");
    line.call("server 1", "none", &[de_escalate(0, 1, 1)]);
    line.call("station 0", "none", &[written_set(0, 1, 2, 2)]);
    line.call("server 0", "none", &[aborted(1, 1, 3)]);
}

/// An abort under the kept lock: "An abort marks written objects under the kept lock too: a later read asks by 1, a later write
/// is local."
#[test]
fn an_abort_and_what_is_behind_it() {
    let mut line = kept();
    line.run("begin 0; write 0 8 2; write 0 9 3");
    line.call("abort 0", "aborted", &[abort(0, 2)]);
    line.call("server 0", "none", &[]);
    line.run("begin 0");
    line.call("read 0 10", "value 0", &[]);
    line.call("read 0 8", "waits", &[read(0, 1, 0, 3)]);
    // nobody else wants the page: no 19
    line.call("server 0", "none", &[left(page(16, 0, 1, 0, 3))]);
    line.call("station 0", "value 1", &[]);
    line.call("write 0 9 5", "written", &[]);
    let record = own(2, 3).reads(&[(8, 1), (10, 0)]).writes(&[(9, 5)]);
    line.call("commit 0", "waits", &[commit(PAGE_1, &[], &record)]);
    line.archives("server 0", "none", &[committed(0, 3, 2)], &[record]);
}

/// .. the write at once, though its object is marked.
#[test]
fn an_abort_and_a_write_behind_it() {
    let mut line = kept();
    line.run("begin 0; write 0 8 2; abort 0; server 0; begin 0");
    line.call("write 0 8 4", "written", &[]);
    line.call("read 0 8", "value 4", &[]);
    let record = own(2, 3).writes(&[(8, 4)]);
    line.call("commit 0", "waits", &[commit(PAGE_1, &[], &record)]);
    line.archives("server 0", "none", &[committed(0, 3, 2)], &[record]);
}

/// Reading 23: "every abort, cause 1 included".
#[test]
fn a_victim_keeps_its_page() {
    let mut line = kept();
    // 2 has read 24, 0 has read 32, and each wants to write the other's
    line.run("begin 2; read 2 24; server 2; station 2; begin 0; read 0 32; server 0; station 0");
    line.run("write 2 32 1; server 2; station 0; server 0; write 0 24 1; server 0; station 2");
    line.call("server 2", "none", &[aborted(0, 2, 1)]);
    line.call("station 0", "aborted 1", &[done(0, 2, 1, 1 << 4)]);
    line.run("begin 0");
    line.call("write 0 8 2", "written", &[]);
    let record = own(2, 3).writes(&[(8, 2)]);
    line.call("commit 0", "waits", &[commit(PAGE_1, &[], &record)]);
    line.call("server 0", "none", &[page(18, 2, 4, 0, 1)]);
    line.archives("server 0", "none", &[committed(0, 3, 2)], &[record]);
}

/// Reading 24: 19 for a commit that is blocked, at once; a locking holder is asked when it is no longer.
#[test]
fn nineteen_for_a_blocked_commit() {
    let mut line = locked_beside_kept();
    // 1 has read 16, which 2 has locked, 9, which 0 keeps, and 41, which 5 has whole
    line.run("begin 5; write 5 40 1; server 5; station 5");
    line.run("begin 1; read 1 9; server 1; station 1; read 1 16; server 1; station 1");
    line.run("read 1 41; server 1; station 1; commit 1");
    line.call("server 1", "none", &[de_escalate(0, 1, 1)]);
    line.call("station 0", "none", &[written_set(0, 1, 1, 0)]);
    line.call("server 0", "none", &[]);
    line.run("abort 2");
    line.call("server 2", "none", &[de_escalate(5, 5, 1)]);
}

/// 0 keeps page 1, and 2 has 16 locked beside 4, which has read 17.
fn locked_beside_kept() -> Line {
    let mut line = kept();
    line.run("begin 4; read 4 17; server 4; station 4");
    line.run("begin 2; write 2 16 1; server 2; station 4; server 4; station 2");
    line
}

/// "even one blocked or given cause 3 (19 goes first)"
#[test]
fn nineteen_before_cause_3() {
    let mut line = locked_beside_kept();
    line.run("begin 1; read 1 9; server 1; station 1; read 1 17; server 1; station 1");
    line.run("write 1 16 7; commit 1");
    let told = [de_escalate(0, 1, 1), aborted(1, 1, 3)];
    line.call("server 1", "none", &told);
    // the 8 is heeded all the same
    line.call("station 0", "none", &[written_set(0, 1, 1, 0)]);
    line.call("server 0", "none", &[]);
    line.run("begin 0");
    line.call("write 0 8 2", "waits", &[write(0, 1, 0, 2)]);
}

/// ".. not 2 or 4"
#[test]
fn no_nineteen_for_causes_2_and_4() {
    let mut line = kept();
    line.run("begin 1; read 1 9; server 1; station 1; commit 1; begin 0; write 0 9 2; commit 0; server 0");
    line.call("server 1", "none", &[aborted(1, 1, 2)]);
    let mut line = Line::fresh(KINDS);
    line.run("numbers 4294967294 0 0 0 0 0 0 0 0");
    line.run(&format!(
        "{KEPT}; begin 1; read 1 9; server 1; station 1; commit 1"
    ));
    line.call("server 1", "none", &[aborted(1, 1, 4)]);
}

/// "A transaction that the server first meets through such an 8 gets its age then": 0's second one is older than 4's first,
/// whose first message came behind the 8 and ahead of 0's own next one.
#[test]
fn an_age_through_an_8() {
    let mut line = head(Head::Open);
    line.run("begin 2; read 2 9; server 2; station 0; server 0; station 2; abort 2; server 2; purge 2 1; server 2");
    line.run("begin 4; read 4 10; server 4; station 4; write 0 10 3");
    line.call("server 0", "none", &[callback(4, 0, 2, &[(1, 4)])]);
    line.call("station 4", "none", &[busy(4, 0, 2)]);
    line.run("server 4; read 4 8");
    line.call("server 4", "none", &[aborted(4, 1, 1)]);
}

/// .. and where it keeps its age, that one: no counter moves.
#[test]
fn a_kept_age_through_an_8() {
    let beaten = "begin 2; read 2 24; server 2; station 2; begin 0; read 0 32; server 0; station 0; \
        write 2 32 1; server 2; station 0; server 0; write 0 24 1; server 0; station 2; server 2; station 0; server 0";
    let met = "begin 0; write 0 8 2; begin 4; read 4 9; server 4; station 0; server 0";
    let mut world = World::fresh([Kind::Locking; 8]);
    for call in scripts::calls(&format!("fresh {KINDS}; {KEPT}; {beaten}; {met}")) {
        world.call(&call);
    }
    let bytes = encode(&world.server);
    // 0's first was the first, 2's the second, 0's second the third, which it keeps, 4's the fourth
    let ages = [0, 2, 4].map(|station| Field::Age.long(&bytes, station));
    assert_eq!(ages, [3, 2, 4]);
    assert_eq!(Field::NextAge.long(&bytes, 0), 5);
    assert_eq!(Field::Latest.word(&bytes, 0), 3);
    assert_eq!(Field::Unfinished.byte_of(&bytes, 0), 1);
    assert_eq!(Field::AgeKept.byte_of(&bytes, 0), 1);
    assert_eq!(Field::Lock.byte_of(&bytes, 8), 1);
}

/// An 8 with an empty set brings its transaction too: the one behind it is above an unfinished one.
#[test]
fn an_empty_8_brings_its_transaction() {
    let mut line = kept();
    line.run("begin 0; begin 2; read 2 9; server 2");
    line.call("station 0", "none", &[written_set(0, 1, 2, 0)]);
    line.call("server 0", "none", &[left(page(16, 2, 1, 1, 1))]);
    line.server_refuses(&read(0, 5, 0, 3), 6);
    line.server_takes(&read(0, 5, 0, 2), &[page(16, 0, 5, 0, 2)]);
}

/// "One naming a transaction above an unfinished one is number 6": "every 8 of a keeping station, whether it answers or not".
#[test]
fn number_6_of_an_8() {
    let mut line = head(Head::Open);
    // nothing is asked for, and transaction 1 is over: taken without effect
    line.server_takes(&written_set(0, 1, 7, 255), &[]);
    line.server_takes(&written_set(0, 5, 7, 255), &[]);
    line.run("begin 2; read 2 9; server 2; read 0 40; server 0; station 0");
    // 2 is unfinished now: its read of 40 came
    line.server_refuses(&written_set(0, 1, 3, 1), 6);
    line.server_refuses(&written_set(0, 5, 3, 1), 6);
    line.server_takes(&written_set(0, 5, 2, 1), &[]);
    line.server_takes(&written_set(0, 5, 1, 1), &[]);
    // a locking station's is taken, and answers nothing
    line.server_takes(&written_set(2, 1, 3, 1), &[]);
    line.server_refuses(&written_set(1, 1, 1, 1), 6);
    line.run("station 0");
    line.call(
        "server 0",
        "none",
        &[left(page(16, 2, 1, 1, 1)).unavailable(1)],
    );
}

/// "is heeded either way; its set is locked only if that transaction is unfinished"
#[test]
fn an_8_of_a_finished_transaction() {
    let mut line = kept();
    line.run("begin 2; read 2 9; server 2");
    line.server_takes(&written_set(0, 1, 1, 255), &[left(page(16, 2, 1, 1, 1))]);
    // of a locking station it is not heeded
    let mut line = Line::fresh(KINDS);
    line.run("begin 5; write 5 8 1; server 5; station 5; begin 2; read 2 9");
    line.call("server 2", "none", &[de_escalate(5, 1, 1)]);
    line.server_takes(&written_set(5, 1, 9, 1), &[]);
    line.server_takes(
        &written_set(5, 1, 1, 1),
        &[page(16, 2, 1, 1, 1).unavailable(1)],
    );
}

/// Reading 24: "One 19 in the life of a lock"; it names the 18's transaction, also of a later 18.
#[test]
fn one_nineteen_for_each_18() {
    let mut line = kept();
    line.run("begin 0; commit 0; server 0; station 0; begin 0; write 0 8 2; commit 0; server 0; station 0");
    line.run("begin 2; read 2 9");
    line.call("server 2", "none", &[de_escalate(0, 1, 1)]);
    line.run("begin 4; read 4 10");
    line.call("server 4", "none", &[]);
    line.run("station 0; server 0; station 2; station 4; abort 2; abort 4; server 2; server 4");
    line.run("purge 2 1; purge 4 1; server 2; server 4; begin 0");
    line.call("write 0 8 3", "waits", &[write(0, 1, 0, 4)]);
    line.run("server 0; station 0; commit 0; server 0; station 0; begin 2; read 2 9");
    line.call("server 2", "none", &[de_escalate(0, 1, 4)]);
}

/// "Purging a page under a kept lock is number 10": behind 4 and 7, and until it is given up.
#[test]
fn purges() {
    let mut line = kept();
    line.replies("purge 0 1", "refused 10");
    line.replies("purge 0 32", "refused 4");
    line.run("begin 0; write 0 8 2; abort 0; server 0; begin 0; read 0 8");
    line.replies("purge 0 1", "refused 7");
    line.run("server 0; station 0; abort 0; server 0");
    line.replies("purge 0 1", "refused 10");
    line.run("begin 2; read 2 9; server 2; station 0");
    line.call("purge 0 1", "purged", &[purge(0, 1)]);
    // the 5 is behind the 8
    line.run("server 0; server 0");
}

/// "no callback drops one", and "the 7 does not name it; the objects are marked all the same": the callback was kept while the
/// page was not locked.
#[test]
fn a_callback_spares_a_kept_page() {
    let mut line = Line::fresh(KINDS);
    line.run("begin 0; read 0 9; server 0; station 0; begin 2; write 2 16 5; server 2; station 2; write 2 9 6");
    line.call("server 2", "none", &[callback(0, 2, 1, &[(1, 2)])]);
    line.call("station 0", "none", &[busy(0, 2, 1)]);
    line.run("server 0; read 0 16");
    line.call("server 0", "none", &[de_escalate(2, 2, 1)]);
    line.call("station 2", "none", &[written_set(2, 2, 1, 1)]);
    let told = [aborted(2, 1, 1), page(16, 0, 2, 0, 1)];
    line.call("server 2", "none", &told);
    line.run("station 2; station 0");
    line.call("write 0 9 7", "waits", &[write(0, 1, 1, 1)]);
    line.call("server 0", "none", &[page(18, 0, 1, 0, 1)]);
    line.run("station 0; commit 0; server 0");
    line.call("station 0", "committed 1", &[done(0, 2, 1, 0)]);
    line.call("server 0", "none", &[]);
    line.run("begin 0");
    line.call("write 0 10 8", "written", &[]);
    line.call("read 0 9", "waits", &[read(0, 1, 1, 2)]);
}

/// A set under a kept lock is written at once.
#[test]
fn a_set_under_a_kept_lock() {
    let mut line = kept();
    line.run("begin 0");
    line.call("writes 0 1 14 2 3 4", "written", &[]);
    let record = own(2, 2).writes(&[(9, 2), (10, 3), (11, 4)]);
    line.call("commit 0", "waits", &[commit(PAGE_1, &[], &record)]);
    line.archives("server 0", "none", &[committed(0, 2, 2)], &[record]);
}

/// "a kept lock making edges only for objects that 8 names": none while the 8 is awaited.
#[test]
fn edges_of_a_kept_lock() {
    let mut world = World::fresh([Kind::Locking; 8]);
    let mut run = |script: &str| {
        for call in scripts::calls(script) {
            world.call(&call);
        }
        world.server.waits_for()
    };
    run(&format!("fresh {KINDS}; {KEPT}; begin 0; write 0 8 2"));
    assert_eq!(run("begin 2; read 2 8; server 2"), [0; 8]);
    // 4 waits for 9, which the 8 will not name
    assert_eq!(run("begin 4; read 4 9; server 4"), [0; 8]);
    assert_eq!(run("station 0; server 0"), [0, 0, 1, 0, 0, 0, 0, 0]);
}

/// Reading 28: "listed ones count for 18, get 20, never 23, send 4, have versions 0".
#[test]
fn a_locking_station_everywhere_else() {
    let mut line = Line::fresh(KINDS);
    line.run("begin 3; read 3 9; server 3; station 3; begin 2; write 2 8 1");
    line.call("server 2", "none", &[callback(3, 2, 1, &[(1, 1)])]);
    line.call("station 3", "none", &[done(3, 2, 1, 0)]);
    line.call("server 3", "none", &[page(17, 2, 1, 0, 1)]);
    line.run("station 2; commit 2");
    let record_of_2 = record(1, 2, 0).writes(&[(8, 1)]);
    line.archives("server 2", "none", &[committed(2, 1, 1)], &[record_of_2]);
    line.call("abort 3", "aborted", &[abort(3, 1)]);
    line.station_refuses(&invalidate(3, &[(1, 1)]), 6);
    line.server_takes(&abort(3, 1), &[]);
    let record = Record {
        transaction: 2,
        ..record(0, 3, KEEPING).reads(&[(9, 0)])
    };
    line.server_refuses(&commit(PAGE_1, &[(0, 1)], &record), 5);
    for kind in [0, 1, 3, 255] {
        let record = Record {
            kind,
            ..record.clone()
        };
        line.server_refuses(&commit(PAGE_1, &[], &record), 5);
    }
    let archived = Record {
        commit: 2,
        ..record.clone()
    };
    let sent = commit(PAGE_1, &[], &record);
    let raw = format!("serverraw {}", sent.hex());
    line.archives(&raw, "none", &[committed(3, 2, 2)], &[archived]);
}

/// "It counts as a lock for what a commit writes, whatever transaction it was given to": an unlocked object is number 6.
#[test]
fn what_a_commit_may_write() {
    let mut line = kept();
    let sent = |address: u8| {
        let record = own(0, 2).writes(&[(address, 5)]);
        commit(1 << (address / 8), &[], &record)
    };
    line.server_refuses(&sent(16), 6);
    let archived = own(2, 2).writes(&[(15, 5)]);
    let raw = format!("serverraw {}", sent(15).hex());
    line.archives(&raw, "none", &[committed(0, 2, 2)], &[archived]);
    line.server_refuses(&purge(0, 1), 6);
    line.server_refuses(&done(0, 2, 1, PAGE_1), 6);
}

/// Kinds are 0, 1 and 2.
#[test]
fn kinds_of_a_line() {
    let mut line = Line::fresh("22222222");
    line.replies("fresh 30000000", "error");
    line.replies("fresh 2222222", "error");
    line.run("begin 7");
    let message = read(7, 31, 7, 1);
    assert_eq!(message.hex().len(), 2 * LENGTH);
    line.call("read 7 255", "waits", &[message]);
}
