//! Of a station.

use super::{work, Work};
use super::{
    ANSWERED, BEGUN, COMMIT_SENT, CYCLE, FRESH, LOCKED_9, OTHER_READ_8, OTHER_READ_9, READ_8,
    SMALL, VALIDATING_READ_8, WHOLE, WRITE_SENT,
};
use second::line::scripts::{largest_transaction, seven_kept};

pub fn works() -> Vec<Work> {
    owners().into_iter().chain(steps()).collect()
}

fn owners() -> Vec<Work> {
    let work = |name, call, scripts: &[&str]| work(name, None, call, scripts);
    let large = largest_transaction("01000000");
    vec![
        work("begin, refused with 9", "begin 0", &[FRESH, BEGUN]),
        work("begin", "begin 0", &[FRESH]),
        work("first read, local", "read 0 9", &[FRESH, READ_8]),
        work("read again", "read 0 8", &[FRESH, READ_8]),
        work("read, requested", "read 0 8", &[FRESH, BEGUN]),
        work("write, locking, local", "write 0 9 6", &[FRESH, WHOLE]),
        work(
            "write, validating, local",
            "write 1 8 6",
            &[FRESH, VALIDATING_READ_8],
        ),
        work("write, requested", "write 0 8 6", &[FRESH, READ_8]),
        work("commit, 2 reads, 1 write", "commit 0", &[FRESH, SMALL]),
        work("commit, 48 and 48", "commit 0", &[&large]),
        work("abort, 2 reads, 1 write", "abort 0", &[FRESH, SMALL]),
        work("abort, 7 callbacks kept", "abort 0", &[&seven_kept()]),
        work(
            "purge",
            "purge 0 1",
            &[FRESH, READ_8, COMMIT_SENT, "station 0"],
        ),
    ]
}

fn steps() -> Vec<Work> {
    let work = |name, kind, call, scripts: &[&str]| work(name, Some(kind), call, scripts);
    let large = largest_transaction("01000000");
    let over = "abort 2; server 2; ";
    let stale = [FRESH, VALIDATING_READ_8, WHOLE, COMMIT_SENT];
    vec![
        work(
            "16 for a read",
            16,
            "station 0",
            &[FRESH, BEGUN, "read 0 8; server 0"],
        ),
        work(
            "17",
            17,
            "station 0",
            &[FRESH, OTHER_READ_9, WRITE_SENT, ANSWERED],
        ),
        work("18", 18, "station 0", &[FRESH, WRITE_SENT]),
        work(
            "19",
            19,
            "station 0",
            &[FRESH, WHOLE, "begin 2; read 2 9; server 2"],
        ),
        work(
            "20 answered 6",
            20,
            "station 2",
            &[FRESH, OTHER_READ_8, WRITE_SENT],
        ),
        work(
            "20 answered 7",
            20,
            "station 2",
            &[FRESH, OTHER_READ_8, over, WRITE_SENT],
        ),
        work(
            "21, 2 reads, 1 write",
            21,
            "station 0",
            &[FRESH, SMALL, COMMIT_SENT],
        ),
        work("21, 48 and 48", 21, "station 0", &[&large, COMMIT_SENT]),
        work(
            "22 for a write, a callback kept",
            22,
            "station 2",
            &[FRESH, READ_8, OTHER_READ_8, CYCLE],
        ),
        work(
            "22 for a commit",
            22,
            "station 1",
            &[
                FRESH,
                VALIDATING_READ_8,
                OTHER_READ_8,
                LOCKED_9,
                "write 1 9 7; commit 1; server 1",
            ],
        ),
        work(
            "23 without an end",
            23,
            "station 1",
            &[FRESH, VALIDATING_READ_8, "abort 1; ", WHOLE, COMMIT_SENT],
        ),
        work("23 with an end", 23, "station 1", &stale),
    ]
}
