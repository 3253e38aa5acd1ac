//! The second implementation alone, against the text and the cases of document 01.

use second::archive::{self, Playback};
use second::generate::{self, Size};
use second::random::Random;
use second::record::{self, Header, Record, View, LONGEST};
use second::samples::{c12, read_of_8};
use second::{text, Refusal};

const HEADING: &str = "commit station transaction reads writes\n";

/// C12's bytes as document 01 prints them.
const C12: [u8; 34] = [
    0x01, 0x00, 0x01, 0x00, 0x01, 0x00, 0x00, 0x00, 0x01, 0x00, 0x00, 0x00, 0x00, 0x00, 0x00, 0x00,
    0x08, 0x08, 0x00, 0x00, 0x00, 0x00, 0x00, 0x00, 0x00, 0x00, 0x01, 0x00, 0x00, 0x00, 0x00, 0x00,
    0x00, 0x00,
];

fn all_addresses() -> Vec<(u8, u64)> {
    (0..=255).map(|address| (address, 0)).collect()
}

fn write(record: &Record, out: &mut [u8]) -> Result<usize, Refusal> {
    record::write(&record.header(), &record.addresses(), &record.values(), out)
}

/// Number of the check after one change of C12.
fn changed(at: usize, to: u8) -> Result<(), Refusal> {
    let mut bytes = C12;
    bytes[at] = to;
    record::check(&bytes)
}

#[test]
fn c10_the_longest_record() {
    let record = Record {
        reads: all_addresses(),
        writes: all_addresses(),
        ..c12()
    };
    let bytes = record.encode();
    assert_eq!((bytes.len(), LONGEST), (4_624, 4_624));
    assert_eq!(record::check(&bytes), Ok(()));
    let mut out = [0; 4_624];
    assert_eq!(write(&record, &mut out), Ok(4_624));
    assert_eq!(out[..], bytes);
}

#[test]
fn c10_one_read_too_many() {
    let mut record = Record {
        reads: all_addresses(),
        ..c12()
    };
    record.reads.push((255, 0));
    assert_eq!(record::check(&record.encode()), Err(Refusal::Record));
    assert_eq!(write(&record, &mut [0; 5_000]), Err(Refusal::Record));
}

#[test]
fn c11_an_empty_file() {
    assert_eq!(text::playback(&[]), format!("{HEADING}end 0\n"));
}

#[test]
fn c12_bytes() {
    assert_eq!(c12().encode(), C12);
    assert_eq!(Record::decode(&C12), Ok(c12()));
    assert_eq!(record::check(&C12), Ok(()));
    let mut out = [0xA5; 36];
    assert_eq!(write(&c12(), &mut out), Ok(34));
    assert_eq!(out[..34], C12);
    assert_eq!(out[34..], [0xA5; 2], "nothing behind the record");
}

#[test]
fn c12_played_back() {
    let archive = generate::archive(&[c12(), read_of_8()]);
    assert_eq!(
        text::playback(&archive),
        format!("{HEADING}1 0 1 1 1\n2 1 1 1 0\nend 2\n")
    );
}

#[test]
fn the_part_of_the_file_itself_is_shown() {
    let view = View::first(&C12).unwrap();
    assert!(std::ptr::eq(view.addresses, &C12[16..18]));
    assert!(std::ptr::eq(view.values, &C12[18..]));
}

#[test]
fn any_commit_number_and_anything_behind() {
    for commit in [0, 1, u32::MAX] {
        let mut bytes = Record { commit, ..c12() }.encode();
        bytes.extend([0xFF; 7]);
        assert_eq!(record::check(&bytes), Ok(()));
    }
}

#[test]
fn number_5_header() {
    assert_eq!(changed(8, 0), Err(Refusal::Record), "transaction 0");
    assert_eq!(changed(12, 7), Ok(()));
    assert_eq!(changed(12, 8), Err(Refusal::Record), "station above 7");
    for kind in 0..=255 {
        // document 02, wish 10: "number 5 starts at kind 3"
        let expected = if kind < 3 {
            Ok(())
        } else {
            Err(Refusal::Record)
        };
        assert_eq!(changed(13, kind), expected, "kind {kind}");
    }
    assert_eq!(changed(14, 1), Err(Refusal::Record), "first zero byte");
    assert_eq!(changed(15, 1), Err(Refusal::Record), "second zero byte");
}

#[test]
fn number_5_order() {
    let with = |reads: &[u8], writes: &[u8]| {
        let entries = |addresses: &[u8]| addresses.iter().map(|a| (*a, 0)).collect();
        let record = Record {
            reads: entries(reads),
            writes: entries(writes),
            ..c12()
        };
        let checked = record::check(&record.encode());
        assert_eq!(write(&record, &mut [0; 200]).map(|_| ()), checked);
        checked
    };
    assert_eq!(with(&[], &[]), Ok(()));
    assert_eq!(with(&[0, 9, 255], &[0, 1]), Ok(()), "writes begin anew");
    assert_eq!(with(&[1, 1], &[]), Err(Refusal::Record), "equal");
    assert_eq!(with(&[2, 1], &[]), Err(Refusal::Record), "falling");
    assert_eq!(with(&[1], &[3, 3]), Err(Refusal::Record), "equal writes");
    assert_eq!(with(&[1], &[4, 5, 4]), Err(Refusal::Record));
}

#[test]
fn number_12_comes_before_5() {
    let mut bytes = C12;
    bytes[12] = 9;
    for length in 0..34 {
        assert_eq!(record::check(&C12[..length]), Err(Refusal::Short));
        assert_eq!(record::check(&bytes[..length]), Err(Refusal::Short));
    }
    assert_eq!(record::check(&bytes), Err(Refusal::Record));
}

#[test]
fn sizes_that_claim_too_much() {
    let claimed = 16 + 9 * 2 * 65_535;
    let mut bytes = vec![0; claimed];
    bytes[..4].fill(255);
    bytes[8] = 1;
    assert_eq!(record::check(&bytes[..claimed - 1]), Err(Refusal::Short));
    assert_eq!(record::check(&bytes), Err(Refusal::Record));
}

#[test]
fn writer_1_comes_before_5_and_nothing_is_touched() {
    let broken = Record {
        station: 8,
        ..c12()
    };
    let mut out = [0xA5; 40];
    assert_eq!(write(&broken, &mut out[..33]), Err(Refusal::Buffer));
    assert_eq!(write(&c12(), &mut out[..33]), Err(Refusal::Buffer));
    assert_eq!(write(&broken, &mut out), Err(Refusal::Record));
    assert_eq!(out, [0xA5; 40]);
}

#[test]
fn writer_counts_of_any_size() {
    let good = c12().header();
    for (reads, writes) in [
        (u32::MAX, 1),
        (u32::MAX, u32::MAX),
        (1 << 31, 1 << 31),
        (477_218_588, 0),
    ] {
        let header = Header {
            reads,
            writes,
            ..good
        };
        let answer = record::write(&header, &[], &[], &mut [0; 100]);
        assert_eq!(answer, Err(Refusal::Buffer));
    }
}

#[test]
fn writer_lengths_must_fit_the_counts() {
    let header = c12().header();
    let mut out = [0xA5; 100];
    for (addresses, values) in [(1, 16), (3, 16), (2, 15), (2, 17), (2, 8), (16, 2)] {
        let (addresses, values) = (vec![8; addresses], vec![0; values]);
        let answer = record::write(&header, &addresses, &values, &mut out);
        assert_eq!(answer, Err(Refusal::Record));
    }
    assert_eq!(out, [0xA5; 100]);
}

#[test]
fn written_is_encoded_is_decoded() {
    let random = &mut Random::new(7);
    for _ in 0..500 {
        let record = generate::record(random, Size::Mixed);
        let bytes = record.encode();
        let mut out = vec![0; bytes.len()];
        assert_eq!(write(&record, &mut out), Ok(bytes.len()));
        assert_eq!(out, bytes);
        assert_eq!(Record::decode(&bytes), Ok(record));
    }
}

#[test]
fn reader_numbers() {
    let archive = generate::archive(&[c12(), read_of_8()]);
    let read = |at, last| archive::read(&archive, at, last).map(|view| view.map(|v| v.header));
    assert_eq!(read(0, 0), Ok(Some(c12().header())));
    assert_eq!(read(34, 1), Ok(Some(read_of_8().header())));
    assert_eq!(read(59, 2), Ok(None), "the end");
    assert_eq!(read(60, 2), Err(Refusal::Short), "behind the end");
    assert_eq!(read(usize::MAX, 2), Err(Refusal::Short));
    assert_eq!(read(0, 1), Err(Refusal::Sequence));
    assert_eq!(read(34, 0), Err(Refusal::Sequence));
    assert_eq!(read(34, u32::MAX), Err(Refusal::Sequence));
}

#[test]
fn no_number_follows_the_last() {
    let bytes = Record { commit: 0, ..c12() }.encode();
    let read = archive::read(&bytes, 0, u32::MAX);
    assert_eq!(read, Err(Refusal::Sequence));
}

#[test]
fn entries_reads_first() {
    let record = Record {
        reads: vec![(3, 30), (4, 40)],
        writes: vec![(1, u64::MAX)],
        ..c12()
    };
    let bytes = record.encode();
    let entries: Vec<_> = (0..4).map(|i| archive::entry(&bytes, 0, 3, i)).collect();
    let expected = [Some((3, 30)), Some((4, 40)), Some((1, u64::MAX)), None];
    assert_eq!(entries, expected);
    assert_eq!(archive::entry(&bytes, 1, 3, 0), None, "ends inside");
    assert_eq!(archive::entry(&bytes, usize::MAX, 3, 0), None);
    assert_eq!(archive::entry(&bytes, 0, u32::MAX, 0), None);
}

#[test]
fn a_refused_record_changes_nothing() {
    let mut playback = Playback::FRESH;
    let wrong_read = Record {
        reads: vec![(8, 2)],
        writes: vec![(9, 9)],
        commit: 2,
        ..c12()
    };
    let archive = generate::archive(&[c12(), wrong_read]);
    assert_eq!(playback.replay(&archive), Err(Refusal::Replay));
    let mut expected = Playback::FRESH;
    expected.values[8] = 1;
    expected.last = 1;
    assert_eq!(playback, expected, "what the first record did stays");
}

#[test]
fn reads_are_compared_with_the_values_before_own_writes() {
    let own = Record {
        reads: vec![(8, 1)],
        ..c12()
    };
    let mut playback = Playback::FRESH;
    let answer = playback.replay(&own.encode());
    assert_eq!(answer, Err(Refusal::Replay));
    assert_eq!(playback, Playback::FRESH);
}

#[test]
fn faults_in_the_text() {
    let ending = |records: &[Record]| {
        let text = text::playback(&generate::archive(records));
        text.lines().last().unwrap().to_string()
    };
    let second = Record {
        commit: 3,
        ..read_of_8()
    };
    assert_eq!(ending(&[c12(), second]), "refused 13 after 1");
    assert_eq!(ending(&[read_of_8()]), "refused 13 after 0", "first 1");
    assert_eq!(ending(&[c12(), c12()]), "refused 13 after 1");
    let wrong_read = Record {
        reads: vec![(8, 0)],
        ..read_of_8()
    };
    assert_eq!(ending(&[c12(), wrong_read]), "refused 14 after 1");
    let broken = Record {
        kind: 3,
        ..read_of_8()
    };
    assert_eq!(ending(&[c12(), broken]), "refused 5 after 1");
    let keeping = Record {
        kind: 2,
        ..read_of_8()
    };
    assert_eq!(ending(&[c12(), keeping]), "end 2");
}

#[test]
fn a_cut_archive_in_the_text() {
    let archive = generate::archive(&[c12(), read_of_8()]);
    for length in 35..archive.len() {
        assert_eq!(
            text::playback(&archive[..length]),
            format!("{HEADING}1 0 1 1 1\nrefused 12 after 1\n")
        );
    }
}

#[test]
fn numbers_of_every_width_in_the_text() {
    let record = Record {
        reads: all_addresses(),
        writes: vec![],
        transaction: u32::MAX,
        station: 7,
        ..c12()
    };
    assert_eq!(
        text::playback(&record.encode()),
        format!("{HEADING}1 7 4294967295 256 0\nend 1\n")
    );
}
