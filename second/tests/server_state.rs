//! The server's state as bytes: docs/STATE.md's table, number 1, leftovers, and what cannot be held.

mod state_table;

use second::line::call::Call;
use second::line::crossing::Crossing;
use second::line::places::Place;
use second::line::scripts;
use second::line::server::state::{decode, encode, lay, lay_step, valid, Field, LENGTH};
use second::line::server::Server;
use second::line::sets::Addresses;
use second::line::world::World;
use second::line::Kind;
use second::random::Random;
use state_table::{fields, not_zero, rows, with};

/// Locking 0 and 2, validating 1.
fn behind(script: &str) -> World {
    let mut world = World::fresh([Kind::Locking; 8]);
    for call in scripts::calls(&format!("fresh 01000000; {script}")) {
        world.call(&call);
    }
    world
}

/// 0 has page 1 whole and was asked for it; 2 waits for a read of 9, 1's commit of 16 for 3's lock on it, whose holder
/// and 4 share page 2.
const BUSY: &str = "begin 0; write 0 8 5; server 0; station 0; \
    begin 2; read 2 9; server 2; \
    begin 4; read 4 17; server 4; station 4; \
    begin 3; write 3 16 7; server 3; station 4; server 4; station 3; \
    begin 1; read 1 16; server 1; station 1; write 1 24 9; server 1; station 1; commit 1; server 1; ";

fn busy() -> Vec<u8> {
    encode(&behind(BUSY).server)
}

#[test]
fn the_fields_are_the_tables() {
    assert_eq!(rows("The server's state"), fields::<Field>());
    assert_eq!(Field::AgeKept.range().end, LENGTH);
    assert_eq!(Field::of(0), Some(Field::Value));
    assert_eq!(Field::of(52_471), Some(Field::Asked));
    assert_eq!(Field::of(52_472), Some(Field::WholeFor));
    assert_eq!(Field::of(LENGTH), None);
}

/// "is 0 everywhere but in the kinds ..., and in the next age and the next arrival, which are 1"
#[test]
fn fresh() {
    let bytes = encode(&Server::fresh([Kind::Validating; 8], 0, [0; 8]));
    let kinds = (53_400..53_408).map(|at| (at, 1));
    let expected: Vec<(usize, u8)> = [(34_944, 1), (34_952, 1)]
        .into_iter()
        .chain(kinds)
        .collect();
    assert_eq!(not_zero(&bytes), expected);
}

#[test]
fn a_state_place_by_place() {
    let bytes = busy();
    // ages by first messages: 0, 2, 4, 3, 1
    let ages = [0, 1, 2, 3, 4].map(|station| Field::Age.long(&bytes, station));
    assert_eq!(ages, [1, 5, 2, 4, 3]);
    assert_eq!(Field::NextAge.long(&bytes, 0), 6);
    // five requests joined the list, of 0, 2, 4, 3 and 1
    assert_eq!(Field::Arrival.long(&bytes, 2), 2);
    assert_eq!(Field::Arrival.long(&bytes, 1), 5);
    assert_eq!(Field::NextArrival.long(&bytes, 0), 6);
    assert_eq!(Field::Whole.byte_of(&bytes, 1), 1);
    assert_eq!(Field::Asked.word(&bytes, 0), 0b10);
    assert_eq!(Field::WholeFor.word(&bytes, 1), 1);
    assert_eq!(Field::Lock.byte_of(&bytes, 16), 4);
    assert_eq!(Field::Listed.word(&bytes, 0), 0b10);
    assert_eq!(Field::Listed.word(&bytes, 1), 0b1100);
    assert_eq!(Field::Want.byte_of(&bytes, 2), 1);
    assert_eq!(Field::Request.byte_of(&bytes, 2), 9);
    assert_eq!(Field::ReadSet.sets(&bytes, 2), Addresses::one(9));
    assert_eq!(Field::Want.byte_of(&bytes, 1), 3);
    assert_eq!(Field::Work.word(&bytes, 1), 1);
    assert_eq!(Field::ReadSet.sets(&bytes, 1), Addresses::one(16));
    assert_eq!(Field::WrittenSet.sets(&bytes, 1), Addresses::one(24));
    assert_eq!(Field::WrittenValue.long(&bytes, 256 + 24), 9);
    assert_eq!(bytes[Field::Kind.range()], [0, 1, 0, 0, 0, 0, 0, 0]);
    assert_eq!(bytes[Field::Unfinished.range()], [1, 1, 1, 1, 1, 0, 0, 0]);
}

/// A write that waits for a 7, and has a 6.
#[test]
fn called_back() {
    let both = "begin 0; read 0 8; server 0; station 0; begin 2; read 2 8; server 2; station 2; ";
    let sent = behind(&format!("{both}write 0 8 5; server 0")).server;
    let bytes = encode(&sent);
    let entry = |bytes: &[u8]| {
        [Field::Want, Field::Called, Field::Pend, Field::Busy].map(|field| field.byte(bytes))
    };
    assert_eq!(entry(&bytes), [2, 1, 0b100, 0]);
    let busy = behind(&format!("{both}write 0 8 5; server 0; station 2; server 2")).server;
    assert_eq!(entry(&encode(&busy)), [2, 1, 0b100, 0b100]);
}

#[test]
fn number_1_lengths_and_ranges() {
    let good = busy();
    assert!(valid(&good));
    // 37,080 up to version 1.10.0, 53,336 up to 1.12.0
    for length in [0, 1, 37_080, 53_336, LENGTH - 1] {
        assert!(!valid(&good[..length]));
    }
    assert!(!valid(&[&good[..], &[0]].concat()));
    for (field, most) in Field::RANGES {
        assert_eq!(field.range().len(), 8);
        for at in field.range() {
            for byte in most + 1..=255 {
                assert!(!valid(&with(&good, at, byte)), "{field:?} {byte}");
            }
        }
    }
    for field in [Field::Lock, Field::Whole] {
        for byte in 9..=255 {
            assert!(
                !valid(&with(&good, field.start(), byte)),
                "{field:?} {byte}"
            );
        }
    }
    for counter in [Field::NextAge, Field::NextArrival] {
        let mut bytes = good.clone();
        counter.put_long(&mut bytes, 0, (1 << 63) - 1);
        assert!(valid(&bytes));
        counter.put_long(&mut bytes, 0, 1 << 63);
        assert!(!valid(&bytes));
    }
}

/// "below the next age", "below the next arrival while it waits, else 0", and no two equal that count.
#[test]
fn number_1_ages_and_arrivals() {
    let good = busy();
    let put = |field: Field, station: usize, number: u64| {
        let mut bytes = good.clone();
        field.put_long(&mut bytes, station, number);
        valid(&bytes)
    };
    assert!(put(Field::Age, 0, 0) && !put(Field::Age, 0, 6) && !put(Field::Age, 0, 2));
    // 7's transaction is none
    assert!(put(Field::Age, 7, 5) && put(Field::Age, 7, 2) && !put(Field::Age, 7, 6));
    // unless it keeps its age
    let kept = |age: u64| {
        let mut bytes = with(&good, Field::AgeKept.start() + 7, 1);
        Field::Age.put_long(&mut bytes, 7, age);
        valid(&bytes)
    };
    assert!(kept(0) && !kept(5) && !kept(2) && !kept(6));
    assert!(put(Field::Arrival, 2, 0) && !put(Field::Arrival, 2, 6));
    assert!(!put(Field::Arrival, 2, 5) && !put(Field::Arrival, 0, 1));
}

/// "two holders of one lock" cannot be written down; "a whole lock beside another's lock on that page" can.
#[test]
fn number_1_locks_and_transactions() {
    let good = busy();
    let beside = Field::Lock.start() + 15;
    assert!(valid(&with(&good, beside, 1)));
    assert!(!valid(&with(&good, beside, 3)));
    let word = |field: Field, station: usize| {
        let mut bytes = good.clone();
        field.put_word(&mut bytes, station, 0);
        valid(&bytes)
    };
    // 0 to 4 have unfinished transactions, 7 has none; 1's commit waits
    assert!((0..5).all(|station| !word(Field::Latest, station)));
    assert!(word(Field::Latest, 7));
    assert!(!word(Field::Work, 1) && word(Field::Work, 2));
}

/// "a locking or keeping station whose transaction is unfinished": of objects and of pages; a 19 is for a page that is locked
/// whole.
#[test]
fn number_1_holders() {
    let mut good = busy();
    // all are in their first transaction
    let whole = |station: u8| {
        let mut bytes = with(&good, Field::Whole.start() + 31, station + 1);
        Field::WholeFor.put_word(&mut bytes, 31, 1);
        valid(&bytes)
    };
    let object = |station: u8| valid(&with(&good, Field::Lock.start() + 250, station + 1));
    for (what, held) in [
        ("whole", &whole as &dyn Fn(u8) -> bool),
        ("object", &object),
    ] {
        // 1 is validating, 5 to 7 have no transaction
        assert!([0, 2, 3, 4].into_iter().all(held), "{what}");
        assert!(![1, 5, 6, 7].into_iter().any(held), "{what}");
    }
    // page 1 is 0's
    assert!(!valid(&with(&good, Field::Asked.start(), 0b11)));
    good = with(&good, Field::Asked.start(), 0);
    assert!(valid(&good));
}

/// "the holder's latest; of a keeping holder any from 1 to its latest; 0 where the page is not locked whole"
#[test]
fn number_1_whole_for() {
    let kept = "fresh 20000000; begin 0; write 0 8 5; server 0; station 0; commit 0; server 0; station 0; \
        begin 0; read 0 16; server 0; station 0; ";
    let keeping = encode(&behind(kept).server);
    assert_eq!(Field::Whole.byte_of(&keeping, 1), 1);
    assert_eq!(Field::WholeFor.word(&keeping, 1), 1);
    assert_eq!(Field::Latest.word(&keeping, 0), 2);
    let put = |bytes: &[u8], page: usize, transaction: u32| {
        let mut bytes = bytes.to_vec();
        Field::WholeFor.put_word(&mut bytes, page, transaction);
        valid(&bytes)
    };
    assert!(put(&keeping, 1, 1) && put(&keeping, 1, 2));
    assert!(!put(&keeping, 1, 0) && !put(&keeping, 1, 3) && !put(&keeping, 1, u32::MAX));
    assert!(put(&keeping, 0, 0) && !put(&keeping, 0, 1));
    // it keeps the page whether its transaction is finished or not; an object lock wants an unfinished one
    let finished = with(&keeping, Field::Unfinished.start(), 0);
    assert!(valid(&finished));
    let object = Field::Lock.start() + 8;
    assert!(valid(&with(&keeping, object, 1)) && !valid(&with(&finished, object, 1)));
    // as a locking one it would have the lock in its latest transaction
    let locking = with(&keeping, Field::Kind.start(), 0);
    assert!(!valid(&locking) && !put(&locking, 1, 1) && put(&locking, 1, 2));
    assert!(!put(&with(&finished, Field::Kind.start(), 0), 1, 2));
    assert!(!put(&with(&keeping, Field::Kind.start(), 1), 1, 2));
}

/// "a station that waits for nothing has an empty entry, one that waits has the entry that its message made"
#[test]
fn number_1_entries() {
    let good = busy();
    // 7 does not wait
    for (field, width) in [
        (Field::Arrival, 8),
        (Field::ReadSet, 32),
        (Field::WrittenSet, 32),
        (Field::Request, 1),
        (Field::Called, 1),
        (Field::Pend, 1),
        (Field::Busy, 1),
        (Field::Want, 1),
    ] {
        let at = field.start() + 7 * width;
        assert!(!valid(&with(&good, at, 1)), "{field:?}");
    }
    // 2 wants to read 9, 1 to commit a read of 16 and a write of 24
    for (field, at, byte) in [
        (Field::Request, 2, 10),
        (Field::ReadSet, 2 * 32, 1),
        (Field::ReadSet, 2 * 32 + 1, 0),
        (Field::WrittenSet, 2 * 32, 1),
        (Field::Called, 2, 1),
        (Field::Pend, 2, 1),
        (Field::Busy, 2, 1),
        (Field::Unfinished, 2, 0),
        (Field::Kind, 2, 1),
        (Field::Want, 2, 2),
        (Field::Want, 2, 3),
        (Field::Request, 1, 16),
        (Field::Kind, 1, 0),
        (Field::Want, 1, 1),
        (Field::Unfinished, 1, 0),
    ] {
        assert!(
            !valid(&with(&good, field.start() + at, byte)),
            "{field:?} {at}"
        );
    }
    // a commit may read and write anything
    assert!(valid(&with(&good, Field::ReadSet.start() + 32, 255)));
}

/// "of a waiting write objects of the requested page alone, at least one", its request "a multiple of 8"
#[test]
fn number_1_of_a_write() {
    let both = "begin 2; write 2 8 6; server 2; station 2; begin 0; ";
    let waits = encode(&behind(&format!("{both}writes 0 1 6 5 5; server 0")).server);
    assert!(valid(&waits));
    assert_eq!(Field::Want.byte_of(&waits, 0), 2);
    assert_eq!(Field::Request.byte_of(&waits, 0), 8);
    assert_eq!(Field::WrittenSet.sets(&waits, 0).on(1), 0b110);
    let put = |field: Field, at: usize, byte: u8| valid(&with(&waits, field.start() + at, byte));
    for byte in 1..=255 {
        assert!(put(Field::WrittenSet, 1, byte), "{byte}");
    }
    assert!(!put(Field::WrittenSet, 1, 0));
    assert!(!put(Field::WrittenSet, 0, 1) && !put(Field::WrittenSet, 2, 1));
    assert!(!put(Field::ReadSet, 1, 2));
    for byte in (0..=255).filter(|byte| *byte != 8) {
        assert!(!put(Field::Request, 0, byte), "{byte}");
    }
}

/// "other, locking stations; 0 unless called is 1", "a part of pend"
#[test]
fn number_1_callbacks() {
    let both = "begin 0; read 0 8; server 0; station 0; begin 2; read 2 8; server 2; station 2; ";
    let called =
        encode(&behind(&format!("{both}write 0 8 5; server 0; station 2; server 2")).server);
    assert!(valid(&called));
    let put = |field: Field, byte: u8| valid(&with(&called, field.start(), byte));
    // 0 waits for 2; 1 is validating
    assert!(put(Field::Pend, 0b1000_0100) && put(Field::Busy, 0));
    assert!(!put(Field::Pend, 0b0000_0101) && !put(Field::Pend, 0b0000_0110));
    assert!(!put(Field::Pend, 0) && !put(Field::Busy, 0b1000_0100) && !put(Field::Called, 0));
}

/// One byte of a busy state is another: number 1, or a state that is held as it is.
#[test]
fn every_valid_byte_is_held() {
    let good = busy();
    let mut taken = 0;
    for at in Field::Age.start()..LENGTH {
        for byte in [0, 1, 2, 3, 255, good[at] ^ 0x10] {
            let bytes = with(&good, at, byte);
            let Some(server) = decode(&bytes) else {
                assert!(!valid(&bytes));
                continue;
            };
            let mut laid = bytes.clone();
            lay(&server, &mut laid);
            assert_eq!(laid, bytes, "{at} {byte}");
            taken += 1;
        }
    }
    assert!(taken > 1_000, "{taken}");
}

/// Each state of many runs comes back from its bytes, whatever the leftovers.
#[test]
fn states_of_runs() {
    let noise = Random::new(3).bytes(LENGTH);
    let mut seen = 0;
    for seed in 1..=60 {
        let mut crossing = Crossing::new(seed, 300);
        let mut world = World::fresh(crossing.kinds);
        while let Some(call) = crossing.next(&world) {
            let reply = world.call(&call);
            crossing.saw(&call, &reply);
            if let Call::Server(_) | Call::ServerRaw(_) = call {
                check(&world.server, &noise, &call);
                seen += 1;
            }
        }
    }
    assert!(seen > 4_000, "{seen}");
}

fn check(server: &Server, noise: &[u8], call: &Call) {
    let mut bytes = encode(server);
    assert!(valid(&bytes), "{call}: {server:?}");
    assert_eq!(decode(&bytes).as_ref(), Some(server), "{call}");
    bytes.copy_from_slice(noise);
    lay(server, &mut bytes);
    assert_eq!(decode(&bytes).as_ref(), Some(server), "{call}");
}

/// "read and written values and versions, and work keep their bytes", those of a commit that installs at once too.
#[test]
fn leftovers() {
    let mut world = behind("begin 0; write 0 8 5; server 0; station 0; commit 0");
    let mut bytes = encode(&world.server);
    let message = world.first_up(0).expect("a commit is under way").to_vec();
    world.call(&Call::Server(0));
    lay_step(&message, &world.server, &mut bytes);
    assert_eq!(Field::Work.word(&bytes, 0), 1);
    assert_eq!(Field::WrittenValue.long(&bytes, 8), 5);
    assert_eq!(Field::Value.long(&bytes, 8), 5);
    assert_eq!(Field::WrittenSet.sets(&bytes, 0), Addresses::default());
    assert_eq!(Field::Age.long(&bytes, 0), 1);
    assert_eq!(decode(&bytes), Some(world.server));
}

/// "number 4,294,967,295 already used": a locking commit is turned away and leaves nothing behind, a validating one has
/// joined the list.
#[test]
fn leftovers_without_a_number() {
    for (station, work) in [(0, 0), (1, 1)] {
        let script =
            format!("numbers 4294967295 0 0 0 0 0 0 0 0; begin {station}; commit {station}");
        let mut world = behind(&script);
        let mut bytes = encode(&world.server);
        let message = world.first_up(station).expect("a commit").to_vec();
        world.call(&Call::Server(station));
        lay_step(&message, &world.server, &mut bytes);
        assert_eq!(Field::Work.word(&bytes, station.into()), work);
    }
}
