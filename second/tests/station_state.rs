//! A station's state as bytes: docs/STATE.md's table, number 1, leftovers, and what cannot be held.

mod state_table;

use second::line::call::Call;
use second::line::crossing::Crossing;
use second::line::places::Place;
use second::line::scripts;
use second::line::sets::Addresses;
use second::line::station::state::{decode, encode, lay, near, valid, Field, LENGTH};
use second::line::station::Station;
use second::line::world::World;
use second::line::Kind;
use second::random::Random;
use state_table::{fields, not_zero, rows, with};

/// Station 0's state behind a script; it is locking, 1 validating.
fn behind(script: &str) -> (Station, Vec<u8>) {
    let mut world = World::fresh([Kind::Locking; 8]);
    for call in scripts::calls(&format!("fresh 01000000; {script}")) {
        world.call(&call);
    }
    let station = world.stations[0].clone();
    let bytes = encode(&station);
    (station, bytes)
}

/// Reads and writes on two pages, a kept callback, a request out.
fn busy() -> Vec<u8> {
    behind(
        "begin 0; read 0 8; server 0; station 0; write 0 17 5; server 0; station 0; \
         begin 2; write 2 8 6; server 2; station 0; read 0 40",
    )
    .1
}

#[test]
fn the_fields_are_the_tables() {
    assert_eq!(rows("A station's state"), fields::<Field>());
    assert_eq!(Field::WaitingSet.range().end, LENGTH);
    assert_eq!(Field::of(0), Some(Field::Copy));
    assert_eq!(Field::of(8_291), Some(Field::Number));
    assert_eq!(Field::of(LENGTH), None);
}

/// "A fresh state is 0 everywhere but in station and kind."
#[test]
fn fresh() {
    let bytes = encode(&Station::fresh(5, Kind::Validating, 0));
    assert_eq!(not_zero(&bytes), [(8_684, 5), (8_685, 1)]);
}

#[test]
fn a_state_place_by_place() {
    let bytes = busy();
    let long = |field: Field, i: usize| {
        let at = field.start() + 8 * i;
        u64::from_le_bytes(bytes[at..at + 8].try_into().unwrap())
    };
    assert_eq!(long(Field::Copy, 17), 5);
    assert_eq!(long(Field::WrittenValue, 17), 5);
    assert_eq!(Field::Kept.word(&bytes, 2), 1);
    assert_eq!(Field::Named.sets(&bytes, 2), Addresses::one(8));
    assert_eq!(Field::Number.word(&bytes, 0), 1);
    assert_eq!(Field::Cached.word(&bytes, 0), 0b110);
    assert_eq!(Field::Whole.word(&bytes, 0), 0b100);
    assert_eq!(Field::ReadSet.sets(&bytes, 0), Addresses::one(8));
    assert_eq!(Field::WrittenSet.sets(&bytes, 0), Addresses::one(17));
    assert_eq!(bytes[8_684..], [0, 0, 1, 1, 40, 0]);
}

/// "its page × 8", the set and its values: of a write only.
#[test]
fn a_waiting_write() {
    let (_, bytes) = behind("begin 0; write 0 9 77");
    assert_eq!(Field::WaitingValues.long(&bytes, 1), 77);
    assert_eq!(bytes[8_684..], [0, 0, 1, 2, 8, 0b10]);
    let (_, bytes) = behind("begin 0; commit 0");
    assert_eq!(bytes[8_684..], [0, 0, 1, 3, 0, 0]);
}

/// Document 02, wish 9: values outside the set keep their bytes, and those locked before stand in the set too.
#[test]
fn a_waiting_set() {
    let others = "begin 2; read 2 15; server 2; station 2; ";
    let locked = "begin 0; write 0 9 5; server 0; station 2; server 2; station 0; ";
    let (station, mut bytes) = behind(&format!("{others}{locked}writes 0 1 7 71 72 73"));
    assert_eq!(bytes[8_684..], [0, 0, 1, 2, 8, 0b111]);
    let values = |bytes: &[u8]| [0, 1, 2, 3].map(|object| Field::WaitingValues.long(bytes, object));
    assert_eq!(values(&bytes), [71, 72, 73, 0]);
    assert_eq!(Field::Locks.sets(&bytes, 0), Addresses::one(9));
    assert_eq!(decode(&bytes), Some(station));
    let (other, _) = behind("begin 0; writes 0 3 9 81 82");
    lay(&other, &mut bytes);
    assert_eq!(bytes[8_684..], [0, 0, 1, 2, 24, 0b1001]);
    assert_eq!(values(&bytes), [81, 72, 73, 82]);
}

/// "a multiple of 8 while a write is out", "not 0 while a write is out"
#[test]
fn number_1_of_a_write() {
    let (_, writes) = behind("begin 0; writes 0 1 7 71 72 73");
    let (_, reads) = behind("begin 0; read 0 9");
    let put = |bytes: &[u8], field: Field, byte: u8| valid(&with(bytes, field.start(), byte));
    for byte in 0..=255 {
        assert_eq!(put(&writes, Field::Address, byte), byte % 8 == 0, "{byte}");
        assert_eq!(put(&writes, Field::WaitingSet, byte), byte != 0, "{byte}");
        assert!(put(&reads, Field::Address, byte) && put(&reads, Field::WaitingSet, byte));
    }
}

/// "at most 48 objects, those of the write that is out counted with them"
#[test]
fn number_1_of_a_long_set() {
    let (_, bytes) = behind("begin 0; writes 0 30 15 1 2 3 4");
    let with_written = |count: usize, more: u8| {
        let mut bytes = bytes.clone();
        let mut written = Addresses([255; 32]).lowest(count);
        written.join(30, more);
        Field::WrittenSet.put_sets(&mut bytes, 0, &written);
        valid(&bytes)
    };
    // of the four that wait so many are written before
    for (count, more, fits) in [
        (44, 0, true),
        (45, 0, false),
        (44, 7, true),
        (44, 16, false),
    ] {
        assert_eq!(with_written(count, more), fits, "{count} {more}");
    }
    assert!(with_written(43, 16) && !with_written(44, 255));
}

#[test]
fn number_1() {
    let good = busy();
    assert!(valid(&good));
    // 6,713 up to version 1.10.0
    for length in [0, 1, 6_713, LENGTH - 1] {
        assert!(!valid(&good[..length]));
    }
    assert!(!valid(&[&good[..], &[0]].concat()));
    for (field, most) in [(Field::Kind, 2), (Field::Open, 1), (Field::Wait, 3)] {
        for byte in most + 1..=255 {
            assert!(
                !valid(&with(&good, field.start(), byte)),
                "{field:?} {byte}"
            );
        }
    }
    for wait in 0..=3 {
        // a write has a set
        let asks = with(&good, Field::WaitingSet.start(), 1);
        assert!(valid(&with(&asks, Field::Wait.start(), wait)));
        assert_eq!(valid(&with(&good, Field::Wait.start(), wait)), wait != 2);
    }
    for station in 0..=255 {
        let bytes = with(&good, Field::Station.start(), station);
        // the callback is 2's
        assert_eq!(valid(&bytes), station < 8 && station != 2, "{station}");
    }
    for byte in 0..4 {
        let own = with(&good, Field::Kept.start() + byte, 1);
        assert!(!valid(&own));
    }
}

/// "any; not 0 while one is open"
#[test]
fn number_0_is_closed() {
    let mut bytes = busy();
    Field::Number.put_word(&mut bytes, 0, 0);
    assert!(!valid(&bytes));
    assert!(valid(&encode(&Station::fresh(0, Kind::Locking, 0))));
}

/// "0 while no transaction is open", "and at a validating station"
#[test]
fn number_1_of_a_transaction() {
    let (_, closed) = behind("begin 0; read 0 8; server 0; station 0; abort 0");
    assert!(decode(&closed).is_some());
    let of_locks = Field::OF_LOCKS;
    for field in Field::OF_TRANSACTION.into_iter().chain(of_locks) {
        // its own callback is another matter
        let at = field.range().end - 1;
        assert!(!valid(&with(&closed, at, 1)), "{field:?}");
    }
    let open = busy();
    assert!(!valid(&with(&open, Field::Open.start(), 0)));
    let mut validating = with(&open, Field::Kind.start(), 1);
    assert!(!valid(&validating));
    for field in of_locks {
        validating[field.range()].fill(0);
    }
    assert!(valid(&validating));
    for field in of_locks {
        let at = field.range().end - 1;
        assert!(valid(&with(&open, at, 1)), "{field:?}");
        assert!(!valid(&with(&validating, at, 1)), "{field:?}");
    }
}

/// "0 while no transaction is open, but at a keeping station": the pages that are locked whole alone.
#[test]
fn number_1_of_kept_locks() {
    let (_, closed) = behind("begin 0; read 0 8; server 0; station 0; abort 0");
    let keeping = with(&closed, Field::Kind.start(), 2);
    for field in Field::OF_LOCKS {
        let at = field.range().end - 1;
        let kept = matches!(field, Field::Whole);
        assert_eq!(valid(&with(&keeping, at, 1)), kept, "{field:?}");
    }
    let script =
        "fresh 20000000; begin 0; write 0 8 5; server 0; station 0; commit 0; server 0; station 0";
    let (station, bytes) = behind(script);
    assert_eq!(Field::Whole.word(&bytes, 0), 0b10);
    assert_eq!(Field::Open.byte(&bytes), 0);
    assert!(valid(&bytes) && station.keeps_rules());
    assert_eq!(decode(&bytes), Some(station));
    for kind in [0, 1] {
        assert!(!valid(&with(&bytes, Field::Kind.start(), kind)));
    }
}

/// "A read that is out is of an object that is in neither set"
#[test]
fn number_1_of_a_read() {
    // its read of 40 is out
    let open = busy();
    for field in [Field::ReadSet, Field::WrittenSet] {
        assert!(!valid(&with(&open, field.start() + 5, 1)), "{field:?}");
        assert!(valid(&with(&open, field.start() + 5, 2)), "{field:?}");
        let mut writes = with(&open, field.start() + 5, 1);
        Field::Wait.put_byte(&mut writes, 2);
        Field::WaitingSet.put_byte(&mut writes, 1);
        assert!(valid(&writes), "{field:?}");
    }
}

/// Valid, and more than a `Station` holds.
#[test]
fn not_decoded() {
    let open = busy();
    assert!(decode(&open).is_some() && decode(&open[1..]).is_none());
    // 32 is locked, and page 4 not cached
    let mut versioned = with(&open, Field::Locks.start() + 4, 1);
    assert!(near(&versioned).is_some());
    Field::Version.put_word(&mut versioned, 32, 1);
    assert!(valid(&versioned) && near(&versioned).is_none());
}

/// Copies that a `Station` cannot hold, the rest as it was.
#[test]
fn nearly_decoded() {
    let open = busy();
    let nearly = |bytes: Vec<u8>| decode(&bytes).is_none() && near(&bytes).is_some();
    // page 0 is not cached
    for field in [Field::Copy, Field::Version, Field::Unavailable] {
        assert!(nearly(with(&open, field.start(), 1)), "{field:?}");
    }
    // 17 was written, and stands in the copy
    let own = Field::Copy.start() + 8 * 17;
    assert!(nearly(with(&open, own, 6)));
    // a lock on page 0, of the object or whole
    for field in [Field::Locks, Field::Whole] {
        let locked = with(&open, field.start(), open[field.start()] | 1);
        assert!(nearly(locked), "{field:?}");
    }
}

/// "the whole lock becomes locks on those objects": none does without it.
#[test]
fn de_escalated_without_a_whole_lock() {
    let mut bytes = busy();
    Field::Whole.put_word(&mut bytes, 0, 0);
    let mut station = decode(&bytes).unwrap();
    let mut message = [0; 144];
    // 19 for page 2 of transaction 1
    message[..5].copy_from_slice(&[19, 0, 2, 0, 1]);
    let sent = station.step(&message).unwrap().sent;
    assert_eq!(sent[0][..5], [8, 0, 2, 0, 1]);
    assert_eq!(sent[0][16], 0b10);
    assert_eq!(encode(&station), bytes);
}

/// Each state of many runs comes back from its bytes, whatever the leftovers, and keeps the rules.
#[test]
fn states_of_runs() {
    let noise = Random::new(3).bytes(LENGTH);
    let mut seen = 0;
    for seed in 1..=60 {
        let mut crossing = Crossing::new(seed, 300);
        let mut world = World::fresh(crossing.kinds);
        while let Some(call) = crossing.next(&world) {
            let reply = world.call(&call);
            crossing.saw(&call, &reply);
            if let Some(number) = call.station() {
                check(&world.stations[number as usize], &noise, &call);
                seen += 1;
            }
        }
    }
    assert!(seen > 8_000);
}

fn check(station: &Station, noise: &[u8], call: &Call) {
    assert!(station.keeps_rules(), "{call}: {station:?}");
    let mut bytes = encode(station);
    assert!(valid(&bytes), "{call}: {station:?}");
    assert_eq!(decode(&bytes).as_ref(), Some(station), "{call}");
    bytes.copy_from_slice(noise);
    lay(station, &mut bytes);
    assert_eq!(decode(&bytes).as_ref(), Some(station), "{call}");
}

/// "What no longer counts keeps its bytes".
#[test]
fn leftovers() {
    let before = busy();
    let (ended, _) = behind("begin 0; read 0 8; server 0; station 0; abort 0");
    let mut after = before.clone();
    lay(&ended, &mut after);
    for field in [
        Field::ReadValue,
        Field::WrittenValue,
        Field::WaitingValues,
        Field::Named,
        Field::Address,
        Field::WaitingSet,
    ] {
        assert_eq!(after[field.range()], before[field.range()], "{field:?}");
    }
    // a dropped page leaves nothing
    assert_eq!(Field::Cached.word(&after, 0), 0b10);
    assert_eq!(after[8 * 16..8 * 24], [0; 64]);
    assert_eq!(decode(&after), Some(ended));
}
