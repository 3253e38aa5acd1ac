//! Numbers 2 to 5 on raw messages, kind by kind and place by place.

#[allow(dead_code)]
mod line_text;

use line_text::*;

/// A message of each kind to a station 2 that is locking, every named field in range; places named are listed.
fn samples() -> Vec<(Message, Vec<usize>)> {
    let page_places: Vec<usize> = [1, 2, 3]
        .into_iter()
        .chain(4..8)
        .chain(16..17)
        .chain(48..144)
        .collect();
    // 17 and 18 name no object
    let lock_places: Vec<usize> = page_places.iter().copied().filter(|at| *at != 3).collect();
    let on_object: Vec<usize> = (1..8).collect();
    let transaction: Vec<usize> = [1].into_iter().chain(4..8).collect();
    let second: Vec<usize> = [1, 2].into_iter().chain(4..8).collect();
    let with = |places: &[usize], more: std::ops::Range<usize>| -> Vec<usize> {
        places.iter().copied().chain(more).collect()
    };
    vec![
        (read(2, 1, 0, 1), on_object),
        (write(2, 1, 0, 1), with(&second, 16..17)),
        (abort(2, 1), transaction.clone()),
        (purge(2, 1), vec![1, 2]),
        (busy(2, 1, 1), second.clone()),
        (done(2, 1, 1, 0), with(&second, 8..12)),
        (written_set(2, 1, 1, 1), with(&second, 16..17)),
        (page(16, 2, 1, 0, 1), page_places),
        (page(17, 2, 1, 0, 1), lock_places.clone()),
        (page(18, 2, 1, 0, 1), lock_places),
        (de_escalate(2, 1, 1), second.clone()),
        (callback(2, 1, 1, &[]), with(&second, 16..48)),
        (committed(2, 1, 1), with(&transaction, 12..16)),
        (aborted(2, 1, 1), with(&transaction, 3..4)),
        (invalidate(2, &[]), with(&[1], 16..48)),
    ]
}

fn command(message: &Message, bytes: &str) -> String {
    match message.kind {
        1..=8 => format!("serverraw {bytes}"),
        _ => format!("stationraw 2 {bytes}"),
    }
}

fn with_byte(message: &Message, at: usize, byte: u8) -> String {
    let mut hex = message.hex();
    hex.replace_range(2 * at..2 * at + 2, &format!("{byte:02x}"));
    hex
}

/// The number given, or 0 for an accepted message.
fn number(command: &str) -> u32 {
    let mut driver = second::line::call::Driver::default();
    driver.reply("fresh 00000000");
    let reply = driver.reply(command);
    match reply.strip_prefix("refused ") {
        Some(number) => number.parse().unwrap(),
        None => 0,
    }
}

#[test]
fn in_range_unless_an_unnamed_byte_is_set() {
    for (message, named) in samples() {
        for at in 1..144 {
            let number = number(&command(&message, &with_byte(&message, at, 1)));
            let expected = if named.contains(&at) { [0, 6] } else { [4, 4] };
            assert!(
                expected.contains(&number),
                "{message:?}, byte {at}: {number}"
            );
        }
    }
}

#[test]
fn ranges() {
    for (message, named) in samples() {
        let check = |at: usize, byte: u8, number_4: bool| {
            let number = number(&command(&message, &with_byte(&message, at, byte)));
            assert_eq!(number == 4, number_4, "{message:?}: {at} {byte} {number}");
        };
        check(1, 7, false);
        check(1, 8, true);
        let requester = matches!(message.kind, 6 | 7 | 20);
        let paged = named.contains(&2) && !requester;
        check(2, 7, !named.contains(&2));
        check(2, 8, !paged);
        check(2, 31, !paged);
        check(2, 32, true);
        match message.kind {
            22 => {
                check(3, 0, true);
                check(3, 4, false);
                check(3, 5, true);
            }
            _ => {
                check(3, 7, !named.contains(&3));
                check(3, 8, true);
            }
        }
        if named.contains(&4) {
            check(4, 0, true);
        }
        if message.kind == 21 {
            check(12, 0, true);
        }
    }
}

/// Document 02, reading 20: "the empty set is 4 before 6, also from a validating station".
#[test]
fn sets_of_write_requests() {
    for set in 0..=255 {
        let number = number(&format!("serverraw {}", writes(2, 1, set, 1).hex()));
        assert_eq!(number, if set == 0 { 4 } else { 0 }, "{set}");
    }
    let mut line = Line::fresh("01000000");
    line.server_refuses(&writes(1, 1, 0, 1), 4);
    line.server_refuses(&writes(1, 1, 3, 1), 6);
    // 17 and 18 may have any unavailable set
    for kind in [17, 18] {
        for set in [0, 1, 255] {
            line.station_refuses(&page(kind, 2, 1, 0, 1).unavailable(set), 6);
        }
    }
}

/// Reading 3: a callback's requester is compared with the station whose step runs.
#[test]
fn callback_of_the_station_itself() {
    let own = callback(2, 2, 1, &[]).hex();
    assert_eq!(number(&format!("stationraw 2 {own}")), 4);
    assert_eq!(number(&format!("stationraw 3 {own}")), 6);
    let others = callback(2, 3, 1, &[]).hex();
    assert_eq!(number(&format!("stationraw 3 {others}")), 4);
    assert_eq!(number(&format!("serverraw {}", busy(2, 2, 1).hex())), 0);
    assert_eq!(number(&format!("serverraw {}", done(2, 2, 1, 0).hex())), 0);
}

#[test]
fn lengths_and_kinds() {
    for (message, _) in samples() {
        let hex = message.hex();
        assert_eq!(number(&command(&message, &hex[2..])), 2);
        assert_eq!(number(&command(&message, &hex[..286])), 2);
        // 112 bytes up to version 1.10.0
        assert_eq!(number(&command(&message, &hex[..224])), 2);
        assert_eq!(number(&command(&message, &format!("{hex}00"))), 2);
        let other_end = match message.kind {
            1..=8 => format!("stationraw 2 {hex}"),
            _ => format!("serverraw {hex}"),
        };
        assert_eq!(number(&other_end), 3);
    }
    for kind in [0, 9, 15, 24, 255] {
        let hex = with_byte(&abort(2, 1), 0, kind);
        assert_eq!(number(&format!("serverraw {hex}")), 3);
        assert_eq!(number(&format!("stationraw 2 {hex}")), 3);
    }
    // reading 1: byte 0 makes a commit, at either end
    let commit_kind = with_byte(&abort(2, 1), 0, 3);
    assert_eq!(number(&format!("serverraw {commit_kind}")), 2);
    assert_eq!(number(&format!("stationraw 2 {commit_kind}")), 2);
}

/// A locking station's commit that reads 8 and 16.
fn sample_commit() -> Message {
    commit(6, &[], &record(0, 2, 0).reads(&[(8, 1), (16, 2)]))
}

fn commit_number(message: &Message) -> u32 {
    number(&format!("serverraw {}", message.hex()))
}

#[test]
fn commits() {
    let good = sample_commit();
    assert_eq!(commit_number(&good), 0);
    let hex = good.hex();
    assert_eq!(number(&format!("stationraw 2 {hex}")), 3);
    assert_eq!(number(&format!("serverraw {}", &hex[..hex.len() - 2])), 2);
    assert_eq!(number(&format!("serverraw {hex}00")), 2);
    assert_eq!(number(&format!("serverraw {}", &hex[..318])), 2);
    // a version too few, with the record as it is
    let cut = format!("{}{}", &hex[..288], &hex[296..]);
    assert_eq!(number(&format!("serverraw {cut}")), 2);
    // 4 before 5
    let both = Message {
        station: 8,
        pages: 7,
        ..good.clone()
    };
    assert_eq!(commit_number(&both), 4);
    for at in [2, 3, 12, 15, 16, 17, 47, 48, 111, 112, 143] {
        assert_eq!(number(&format!("serverraw {}", with_byte(&good, at, 1))), 4);
    }
    // versions, then the record's header: number, transaction, station, kind, zero bytes, addresses
    for (at, byte) in [
        (144, 1),
        (148, 1),
        (151, 1),
        (156, 1),
        (160, 2),
        (164, 3),
        (164, 8),
        (165, 1),
        (165, 2),
        (165, 3),
        (166, 1),
        (167, 1),
        (168, 16),
        (169, 8),
        (169, 24),
    ] {
        let number = number(&format!("serverraw {}", with_byte(&good, at, byte)));
        assert_eq!(number, 5, "{at} {byte}");
    }
    for pages in [0, 2, 7] {
        let other = Message {
            pages,
            ..good.clone()
        };
        assert_eq!(commit_number(&other), 5);
    }
    // values are not compared
    assert_eq!(
        number(&format!("serverraw {}", with_byte(&good, 170, 9))),
        0
    );
}

#[test]
fn validating_versions() {
    let mut line = Line::fresh("01000000");
    let reads = record(0, 1, 1).reads(&[(8, 0)]);
    line.server_refuses(
        &commit(
            2,
            &[],
            &Record {
                kind: 0,
                ..reads.clone()
            },
        ),
        5,
    );
    line.server_takes(&commit(2, &[(0, 1)], &reads), &[aborted(1, 1, 2)]);
}

/// Document 02, wish 1: "The server gives number 5 to n or m above 48", so to C10's 256 and 257 inside a commit too.
#[test]
fn longest_commit() {
    let first = |n: u16| (0..n).map(|address| (address as u8, 0)).collect::<Vec<_>>();
    let (most, more) = (first(48), first(49));
    let longest = commit(0x3F, &[], &record(0, 2, 0).reads(&most).writes(&most));
    assert_eq!(longest.hex().len(), 2 * 1_408);
    // number 6, behind 5: a locking station writes what it has not locked
    assert_eq!(commit_number(&longest), 6);
    let reads = commit(0x3F, &[], &record(0, 2, 0).reads(&most));
    assert_eq!(commit_number(&reads), 0);
    for long in [record(0, 2, 0).reads(&more), record(0, 2, 0).writes(&more)] {
        assert_eq!(commit_number(&commit(0x7F, &[], &long)), 5);
    }
    for n in [256, 257] {
        let long = record(0, 2, 0).reads(&first(n));
        assert_eq!(commit_number(&commit(u32::MAX, &[], &long)), 5);
    }
}
