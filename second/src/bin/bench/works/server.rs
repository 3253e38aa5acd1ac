//! Of the server.

use super::{work, Work};
use super::{
    BEGUN, COMMIT_SENT, FRESH, LOCKED_9, OTHER_READ_8, READ_8, SMALL, VALIDATING_READ_8, WHOLE,
    WRITE_SENT,
};
use second::line::call::Call;
use second::line::message::Up;
use second::line::scripts::largest_transaction;
use second::line::LIMIT;

/// 6 in transaction 1, from this station to this requester.
fn busy(station: u8, requester: u8) -> String {
    let message = Up::Busy {
        requester,
        transaction: 1,
    };
    Call::ServerRaw(message.encode(station)).to_string()
}

/// Each kind of message, by what it leads to.
pub fn works() -> Vec<Work> {
    let work = |name, kind, call, scripts: &[&str], sends: &[u8]| Work {
        sends: sends.to_vec(),
        ..work(name, Some(kind), call, scripts)
    };
    // it names its own sender: nothing but the checks and the pass
    let idle = busy(0, 0);
    let shared = [FRESH, READ_8, OTHER_READ_8].concat();
    let called = [
        FRESH,
        OTHER_READ_8,
        "begin 0; write 0 8 5; server 0; station 2; ",
    ]
    .concat();
    let over = [
        FRESH,
        OTHER_READ_8,
        "abort 2; server 2; ",
        WRITE_SENT,
        "station 2; ",
    ]
    .concat();
    let validating = "write 1 9 7; commit 1; ";
    let large = largest_transaction("00000000");
    let large_validating = largest_transaction("10000000");
    let many = seven_listed();
    vec![
        Work {
            number: 6,
            ..work("6, refused", 6, &busy(1, 0), &[FRESH], &[])
        },
        work("6, nothing open", 6, &idle, &[FRESH], &[]),
        work(
            "1, validating: 16",
            1,
            "server 1",
            &[FRESH, "begin 1; read 1 8"],
            &[16],
        ),
        work("1: 16", 1, "server 0", &[FRESH, BEGUN, "read 0 8"], &[16]),
        work(
            "1, page locked whole: 19",
            1,
            "server 2",
            &[FRESH, WHOLE, "begin 2; read 2 9"],
            &[19],
        ),
        work(
            "2: 18",
            2,
            "server 0",
            &[FRESH, BEGUN, "write 0 8 5"],
            &[18],
        ),
        work("2: 20", 2, "server 0", &[&shared, "write 0 8 5"], &[20]),
        work(
            "3, 2 reads, 1 write: 21",
            3,
            "server 0",
            &[FRESH, SMALL, "commit 0"],
            &[21],
        ),
        work(
            "3, 48 and 48: 21",
            3,
            "server 0",
            &[&large, "commit 0"],
            &[21],
        ),
        work(
            "3, validating, 1 read, 1 write: 21",
            3,
            "server 1",
            &[FRESH, VALIDATING_READ_8, validating],
            &[21],
        ),
        work(
            "3, validating, 48 and 48: 21",
            3,
            "server 0",
            &[&large_validating, "commit 0"],
            &[21],
        ),
        work(
            "3, validating, page locked whole: 19",
            3,
            "server 1",
            &[FRESH, VALIDATING_READ_8, WHOLE, validating],
            &[19],
        ),
        work(
            "3, validating: 22, cause 3",
            3,
            "server 1",
            &[FRESH, VALIDATING_READ_8, OTHER_READ_8, LOCKED_9, validating],
            &[22],
        ),
        work(
            "3: 21 and seven 23",
            3,
            "server 0",
            &[&many],
            &[21, 23, 23, 23, 23, 23, 23, 23],
        ),
        work(
            "4, a lock freed",
            4,
            "server 0",
            &[FRESH, WHOLE, "abort 0"],
            &[],
        ),
        work(
            "5",
            5,
            "server 0",
            &[FRESH, READ_8, COMMIT_SENT, "station 0; purge 0 1"],
            &[],
        ),
        work("6 to an open 20", 6, "server 2", &[&called], &[]),
        work("7: 18", 7, "server 2", &[&over], &[18]),
        work(
            "8: 16",
            8,
            "server 0",
            &[FRESH, WHOLE, "begin 2; read 2 9; server 2; station 0"],
            &[16],
        ),
        work(
            "2, a cycle: 22, cause 1",
            2,
            "server 2",
            &[
                &shared,
                "write 0 8 5; server 0; station 2; server 2; write 2 8 6",
            ],
            &[22],
        ),
        work("6, eight writes wait", 6, &idle, &[&waiters(8)], &[]),
        work(
            "6, seven commits of 48 reads wait",
            6,
            &idle,
            &[&seven_commits()],
            &[],
        ),
    ]
}

/// The pass with so many waiters, and nothing that it can do.
pub fn waiting(many: usize) -> Work {
    work("waiters", Some(6), &busy(0, 0), &[&waiters(many)])
}

/// Seven validating stations have page 1; 0 commits a write to it.
fn seven_listed() -> String {
    let reads: String = (1..8)
        .map(|s| format!("begin {s}; read {s} 8; server {s}; station {s}; "))
        .collect();
    format!("fresh 01111111; {reads}{WHOLE}commit 0")
}

/// Each wants to write on a page that its neighbour has, and waits for the 7 to its 20.
fn waiters(many: usize) -> String {
    let reads: String = (0..8)
        .map(|s| {
            format!(
                "begin {s}; read {s} {}; server {s}; station {s}; ",
                8 * ((s + 1) % 8)
            )
        })
        .collect();
    let writes: String = (0..many)
        .map(|s| format!("write {s} {} 5; server {s}; ", 8 * s))
        .collect();
    format!("fresh 00000000; {reads}{writes}")
}

/// Seven validating stations have read everything and commit, while 0 has page 1 whole and owes an 8.
fn seven_commits() -> String {
    let reads: String = (1..8)
        .map(|s| {
            let reads: String = (0..LIMIT)
                .map(|address| format!("read {s} {address}; server {s}; station {s}; "))
                .collect();
            format!("begin {s}; {reads}")
        })
        .collect();
    let commits: String = (1..8)
        .map(|s| format!("commit {s}; server {s}; "))
        .collect();
    format!("fresh 01111111; {reads}{WHOLE}{commits}")
}
