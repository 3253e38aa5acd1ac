//! Playback for people, the second implementation alone. What is expected is written out from docs/PLAYBACK.md.

use second::generate::{self, Size};
use second::people;
use second::random::Random;
use second::samples;

/// C12, and station 1 reads what it wrote, as document 01 has them.
const TWO: [u8; 59] = [
    1, 0, 1, 0, 1, 0, 0, 0, 1, 0, 0, 0, 0, 0, 0, 0, // header
    8, 8, // addresses
    0, 0, 0, 0, 0, 0, 0, 0, 1, 0, 0, 0, 0, 0, 0, 0, // values
    1, 0, 0, 0, 2, 0, 0, 0, 1, 0, 0, 0, 1, 1, 0, 0, // byte 34: header
    8, // byte 50: address
    1, 0, 0, 0, 0, 0, 0, 0, // byte 51: value
];

const COMMITS: &str = "commit station transaction reads writes\n1 0 1 1 1\n";

fn said(arguments: &[&str], archive: &[u8]) -> (String, String) {
    let said = people::said(arguments, archive).expect("a text that is laid down");
    let text = |bytes| String::from_utf8(bytes).expect("plain text");
    (text(said.output), text(said.errors))
}

/// The two records with bytes of the second changed, its first being 0.
fn changed(bytes: &[(usize, u8)]) -> Vec<u8> {
    let mut archive = TWO.to_vec();
    for (at, to) in bytes {
        archive[34 + at] = *to;
    }
    archive
}

/// The table in which counter 8 stands so, and all others are 0 and never written.
fn table(eight: &str, closing: &str) -> String {
    let mut table = "counter page object value writes\n".to_string();
    for page in 0..32 {
        for object in 0..8 {
            table += &match 8 * page + object {
                8 => format!("8 1 0 {eight}\n"),
                address => format!("{address} {page} {object} 0 0\n"),
            };
        }
    }
    table + closing
}

/// The line that closes a play which stopped at a commit.
fn reached(commit: &str) -> String {
    format!("at {commit}: what follows was not looked at\n")
}

/// The second record is refused: with this number, at this byte, in these words, whatever the argument.
fn refused(archive: &[u8], number: u32, byte: usize, words: &str) {
    let line = format!("playback: byte {byte}, in the record at byte 34: {words}\n");
    let closing = format!("refused {number} after 1\n");
    let outputs = [
        (&[][..], format!("{COMMITS}{closing}")),
        (&["--totals"], table("1 1", &closing)),
        (&["--at", "2"], closing.clone()),
        (&["--at", "4294967295"], closing.clone()),
        (&["--record", "2"], closing.clone()),
    ];
    for (arguments, output) in outputs {
        assert_eq!(said(arguments, archive), (output, line.clone()));
    }
    // in front of the fault there is none
    let at_1 = (table("1 1", &reached("1")), String::new());
    assert_eq!(said(&["--at", "1"], archive), at_1);
}

/// Sizes that a record may not have, and all that they claim.
fn oversized(sizes: [u8; 4], length: usize) -> Vec<u8> {
    let [n0, n1, m0, m1] = sizes;
    let mut archive = changed(&[(0, n0), (1, n1), (2, m0), (3, m1)]);
    archive.resize(34 + length, 0);
    archive
}

#[test]
fn without_an_argument() {
    let output = format!("{COMMITS}2 1 1 1 0\nend 2\n");
    assert_eq!(said(&[], &TWO), (output, String::new()));
}

#[test]
fn an_empty_archive() {
    let heading = "commit station transaction reads writes\nend 0\n".to_string();
    assert_eq!(said(&[], &[]), (heading, String::new()));
    let fresh = table("0 0", "end 0\n");
    assert_eq!(said(&["--totals"], &[]), (fresh, String::new()));
}

#[test]
fn totals() {
    let output = table("1 1", "end 2\n");
    assert_eq!(said(&["--totals"], &TWO), (output, String::new()));
}

#[test]
fn a_counter_that_is_written_twice() {
    // the second record writes 3 where it read 1
    let mut archive = changed(&[(0, 0), (2, 1)]);
    archive[51] = 3;
    let at = |n| said(&["--at", n], &archive).0;
    assert_eq!(said(&["--totals"], &archive).0, table("3 2", "end 2\n"));
    assert_eq!(at("1"), table("1 1", &reached("1")));
    assert_eq!(at("2"), table("3 2", &reached("2")));
}

#[test]
fn the_largest_value() {
    let mut archive = changed(&[(0, 0), (2, 1)]);
    archive[51..].fill(255);
    let output = table("18446744073709551615 2", "end 2\n");
    assert_eq!(said(&["--totals"], &archive), (output, String::new()));
}

#[test]
fn at_a_commit() {
    for (n, eight) in [("0", "0 0"), ("1", "1 1"), ("2", "1 1")] {
        let output = table(eight, &reached(n));
        assert_eq!(said(&["--at", n], &TWO), (output, String::new()));
    }
}

#[test]
fn at_0_of_any_input() {
    for archive in [&[][..], &TWO[..5], &[255; 100]] {
        let output = table("0 0", &reached("0"));
        assert_eq!(said(&["--at", "0"], archive), (output, String::new()));
    }
}

#[test]
fn at_a_commit_that_is_not_there() {
    for n in ["3", "9", "4294967295"] {
        let line = format!("playback: there is no commit {n}: the archive ends behind commit 2\n");
        assert_eq!(said(&["--at", n], &TWO), ("end 2\n".to_string(), line));
    }
    let line = "playback: there is no commit 1: the archive ends behind commit 0\n";
    let expected = ("end 0\n".to_string(), line.to_string());
    assert_eq!(said(&["--at", "1"], &[]), expected);
}

#[test]
fn what_stands_behind_the_commit_is_not_looked_at() {
    let archive = [&TWO[..], &[255; 40]].concat();
    let output = table("1 1", &reached("2"));
    assert_eq!(said(&["--at", "2"], &archive), (output, String::new()));
    let (output, line) = said(&["--at", "3"], &archive);
    assert_eq!(output, "refused 12 after 2\n");
    assert_eq!(
        line,
        "playback: byte 99, in the record at byte 59: \
         the archive ends here, 40 bytes into a record of 1179646, but no record has such sizes\n"
    );
}

#[test]
fn number_12_at_every_cut() {
    for there in 1..16 {
        let words = format!("the archive ends here, {there} bytes into a header of 16");
        refused(&TWO[..34 + there], 12, 34 + there, &words);
    }
    for there in 16..25 {
        let words = format!("the archive ends here, {there} bytes into a record of 25");
        refused(&TWO[..34 + there], 12, 34 + there, &words);
    }
}

#[test]
fn number_12_in_the_first_record() {
    for (there, of) in (1..16)
        .map(|n| (n, "header of 16"))
        .chain((16..34).map(|n| (n, "record of 34")))
    {
        let line = format!(
            "playback: byte {there}, in the record at byte 0: the archive ends here, {there} bytes into a {of}\n"
        );
        let (output, errors) = said(&["--totals"], &TWO[..there]);
        assert_eq!(output, table("0 0", "refused 12 after 0\n"));
        assert_eq!(errors, line);
    }
}

#[test]
fn number_12_of_a_claim() {
    let claims = [
        ([255, 255, 255, 255], 1_179_646),
        ([255, 255, 0, 0], 589_831),
        ([0, 0, 255, 255], 589_831),
        ([1, 1, 0, 0], 2_329),
    ];
    for (sizes, length) in claims {
        let short = oversized(sizes, length - 1);
        let words = format!(
            "the archive ends here, {} bytes into a record of {length}, but no record has such sizes",
            length - 1
        );
        refused(&short, 12, 34 + length - 1, &words);
    }
}

#[test]
fn number_5_sizes() {
    let reads = |n| format!("{n} reads, but a record has at most 256");
    let writes = |m| format!("{m} writes, but a record has at most 256");
    refused(&oversized([1, 1, 0, 0], 2_329), 5, 34, &reads(257));
    refused(&oversized([255, 255, 0, 0], 589_831), 5, 34, &reads(65_535));
    refused(&oversized([0, 0, 1, 1], 2_329), 5, 36, &writes(257));
    refused(
        &oversized([0, 0, 255, 255], 589_831),
        5,
        36,
        &writes(65_535),
    );
    refused(&oversized([1, 1, 1, 1], 4_642), 5, 34, &reads(257));
}

#[test]
fn number_5_header() {
    for (at, to, byte, words) in [
        (8, 0, 42, "transaction 0, but the first is 1"),
        (12, 8, 46, "station 8, but stations are 0 to 7"),
        (12, 9, 46, "station 9, but stations are 0 to 7"),
        (12, 255, 46, "station 255, but stations are 0 to 7"),
        (13, 3, 47, "kind 3, but kinds are 0 to 2"),
        (13, 255, 47, "kind 255, but kinds are 0 to 2"),
        (14, 7, 48, "this byte is 7, but it must be 0"),
        (15, 255, 49, "this byte is 255, but it must be 0"),
    ] {
        refused(&changed(&[(at, to)]), 5, byte, words);
    }
}

/// The second record with these addresses, all values 0.
fn addressed(reads: &[u8], writes: &[u8]) -> Vec<u8> {
    let mut archive = changed(&[(0, reads.len() as u8), (2, writes.len() as u8)]);
    archive.truncate(34 + 16);
    archive.extend(reads);
    archive.extend(writes);
    archive.resize(archive.len() + 8 * (reads.len() + writes.len()), 0);
    archive
}

#[test]
fn number_5_order() {
    let cases: [(&[u8], &[u8], usize, &str); 6] = [
        (&[9, 8], &[], 51, "address 8 behind 9"),
        (&[9, 9], &[], 51, "address 9 behind 9"),
        (&[], &[255, 0], 51, "address 0 behind 255"),
        (&[1, 2, 1], &[5, 4], 52, "address 1 behind 2"),
        (&[1, 2], &[5, 6, 6, 3], 54, "address 6 behind 6"),
        (&[7], &[3, 3], 52, "address 3 behind 3"),
    ];
    for (reads, writes, byte, words) in cases {
        let words = format!("{words}, but addresses rise");
        refused(&addressed(reads, writes), 5, byte, &words);
    }
}

#[test]
fn the_first_write_may_have_any_address() {
    let archive = addressed(&[9, 10], &[1, 2]);
    assert_eq!(said(&["--totals"], &archive).1, "");
}

#[test]
fn number_13() {
    let words = |commit| {
        format!("commit {commit} behind commit 1, but commits are numbered 1, 2, 3 and on")
    };
    refused(&changed(&[(4, 0)]), 13, 38, &words("0"));
    refused(&changed(&[(4, 1)]), 13, 38, &words("1"));
    refused(&changed(&[(4, 3)]), 13, 38, &words("3"));
    refused(
        &changed(&[(4, 255), (5, 255), (6, 255), (7, 255)]),
        13,
        38,
        &words("4294967295"),
    );
    refused(&changed(&[(7, 128)]), 13, 38, &words("2147483650"));
}

#[test]
fn number_13_of_the_first_record() {
    for (bytes, commit) in [([0; 4], "0"), ([2, 0, 0, 0], "2"), ([255; 4], "4294967295")] {
        let mut archive = TWO;
        archive[4..8].copy_from_slice(&bytes);
        let line = format!(
            "playback: byte 4, in the record at byte 0: commit {commit} behind commit 0, \
             but commits are numbered 1, 2, 3 and on\n"
        );
        assert_eq!(said(&[], &archive).1, line);
    }
}

#[test]
fn number_14() {
    let seven = "counter 8 is read as 7, but the records before leave 1";
    refused(&changed(&[(17, 7)]), 14, 51, seven);
    let top = "counter 8 is read as 9223372036854775809, but the records before leave 1";
    refused(&changed(&[(24, 128)]), 14, 51, top);
    // the second of three reads, and a write behind them
    let archive = addressed(&[0, 8, 9], &[8]);
    let zero = "counter 8 is read as 0, but the records before leave 1";
    refused(&archive, 14, 34 + 16 + 4 + 8, zero);
}

#[test]
fn the_first_of_several_faults_of_a_header_is_named() {
    // from the last row of the table up: each is added to those behind it
    let mut archive = addressed(&[8, 7], &[]);
    archive[34 + 4] = 5;
    refused(&archive, 5, 51, "address 7 behind 8, but addresses rise");
    for (at, to, byte, words) in [
        (15, 7, 49, "this byte is 7, but it must be 0"),
        (14, 6, 48, "this byte is 6, but it must be 0"),
        (13, 5, 47, "kind 5, but kinds are 0 to 2"),
        (12, 8, 46, "station 8, but stations are 0 to 7"),
        (8, 0, 42, "transaction 0, but the first is 1"),
    ] {
        archive[34 + at] = to;
        refused(&archive, 5, byte, words);
    }
}

#[test]
fn sizes_come_before_other_fields_and_short_before_all() {
    let mut archive = oversized([0, 0, 1, 1], 4_642);
    archive[34 + 8] = 0;
    archive[34 + 12] = 9;
    refused(&archive, 5, 36, "257 writes, but a record has at most 256");
    archive[34..36].fill(1);
    refused(&archive, 5, 34, "257 reads, but a record has at most 256");
    archive.pop();
    let words =
        "the archive ends here, 4641 bytes into a record of 4642, but no record has such sizes";
    refused(&archive, 12, 4_675, words);
}

#[test]
fn order_then_sequence_then_replay() {
    let mut archive = addressed(&[8, 9], &[]);
    archive[51] = 8;
    archive[38] = 0;
    refused(&archive, 5, 51, "address 8 behind 8, but addresses rise");
    archive[51] = 9;
    let words = "commit 0 behind commit 1, but commits are numbered 1, 2, 3 and on";
    refused(&archive, 13, 38, words);
    archive[38] = 2;
    let words = "counter 8 is read as 0, but the records before leave 1";
    refused(&archive, 14, 52, words);
}

const UNCLEAR: [&[&str]; 33] = [
    &[""],
    &["--"],
    &["-h"],
    &["--at"],
    &["--at="],
    &["--at=1"],
    &["--total"],
    &["--Totals"],
    &["--totals "],
    &["--at", ""],
    &["--at", "-1"],
    &["--at", "+1"],
    &["--at", " 1"],
    &["--at", "1 "],
    &["--at", "0x1"],
    &["--at", "1e1"],
    &["--at", "4294967296"],
    &["--at", "18446744073709551617"],
    &["--at", "1", "--totals"],
    &["--totals", "--totals"],
    &["--totals", "--help"],
    &["one", "two"],
    &["-", "-"],
    &["--csv", "--tab"],
    &["--counter"],
    &["--counter", "256"],
    &["--record", "0"],
    &["--at", "1", "--from"],
    &["--totals", "--from"],
    &["--record", "1", "--to"],
    &["--to", "1", "--from"],
    &["--from", "1", "--to", "x"],
    &["--at", "--csv"],
];

#[test]
fn arguments_that_are_not_understood() {
    for arguments in UNCLEAR {
        let word = arguments.last().expect("a word");
        let line =
            format!("playback: {word} is not understood here; playback --help says what is\n");
        let expected = (String::new(), line);
        assert_eq!(said(arguments, &TWO), expected, "{arguments:?}");
        assert_eq!(said(arguments, &[255; 5]), expected, "{arguments:?}");
    }
}

#[test]
fn zeros_in_front_of_a_number() {
    let output = table("1 1", &reached("1"));
    assert_eq!(said(&["--at", "0001"], &TWO).0, output);
    assert_eq!(said(&["--at", "000000000000000000000001"], &TWO).0, output);
    assert_eq!(said(&["--at", "00"], &TWO).0, table("0 0", &reached("0")));
}

#[test]
fn the_longest_word() {
    let zeros = "0".repeat(4_095);
    let at = |word: String| said(&["--at", &word], &TWO);
    assert_eq!(at(format!("{zeros}1")).0, table("1 1", &reached("1")));
    let longer = at(format!("0{zeros}1"));
    assert_eq!(longer.0, "");
    assert!(longer.1.starts_with("playback:  is not understood"));
}

/// The closing line and the place of a fault are found on two ways: they agree on any bytes.
#[test]
fn the_number_is_that_of_a_play_without_arguments() {
    let random = &mut Random::new(7);
    for _ in 0..4_000 {
        let mut archive = generate::archive_of_length(random, Size::Tiny, 100);
        for _ in 0..1 + random.below(3) {
            generate::change_a_bit(random, &mut archive);
        }
        let last = |arguments: &[&str]| {
            let (output, errors) = said(arguments, &archive);
            (output.lines().last().map(str::to_string), errors)
        };
        assert_eq!(last(&[]), last(&["--totals"]));
    }
}

/// The table of flipped bits in docs/PLAYBACK.md.
#[test]
fn what_a_flipped_bit_does() {
    let page = include_str!("../../docs/PLAYBACK.md");
    for name in ["c12", "longer"] {
        let archive = samples::named(name).expect("a sample");
        let row = people::Flips::of(&archive).row(name);
        assert!(page.lines().any(|line| line == row), "{row}");
    }
}

const CHANGES: &str = "commit station before after\n";

#[test]
fn the_changes_of_a_counter() {
    let output = format!("{CHANGES}1 0 0 1\nend 2\n");
    assert_eq!(said(&["--counter", "8"], &TWO), (output, String::new()));
    let output = format!("{CHANGES}end 2\n");
    assert_eq!(said(&["--counter", "9"], &TWO), (output, String::new()));
    // the second record writes 3 where it read 1
    let mut archive = changed(&[(0, 0), (2, 1)]);
    archive[51] = 3;
    let at = |words: &[&str]| said(words, &archive).0;
    assert_eq!(
        at(&["--counter", "8"]),
        format!("{CHANGES}1 0 0 1\n2 1 1 3\nend 2\n")
    );
    assert_eq!(
        at(&["--counter", "8", "--from", "2"]),
        format!("{CHANGES}2 1 1 3\nend 2\n")
    );
    assert_eq!(
        at(&["--to", "1", "--counter", "8"]),
        format!("{CHANGES}1 0 0 1\n{}", reached("1"))
    );
}

#[test]
fn a_range_of_commits() {
    let heading = "commit station transaction reads writes\n";
    let two = format!("{heading}2 1 1 1 0\nend 2\n");
    assert_eq!(said(&["--from", "2"], &TWO).0, two);
    assert_eq!(
        said(&["--from", "2", "--to", "9"], &TWO),
        (two, String::new())
    );
    assert_eq!(
        said(&["--to", "1"], &TWO).0,
        format!("{COMMITS}{}", reached("1"))
    );
    assert_eq!(
        said(&["--to", "0"], &TWO).0,
        format!("{heading}{}", reached("0"))
    );
    assert_eq!(said(&["--from", "3"], &TWO).0, format!("{heading}end 2\n"));
}

#[test]
fn a_record_in_full() {
    let numbers = "commit station kind transaction reads writes byte length\n";
    let entries = "entry counter page object value\n";
    let first = format!(
        "{numbers}1 0 0 1 1 1 0 34\n{entries}read 8 1 0 0\nwrite 8 1 0 1\n{}",
        reached("1")
    );
    assert_eq!(said(&["--record", "1"], &TWO), (first, String::new()));
    let second = format!(
        "{numbers}2 1 1 1 1 0 34 25\n{entries}read 8 1 0 1\n{}",
        reached("2")
    );
    assert_eq!(said(&["--record", "2"], &TWO), (second, String::new()));
    let line = "playback: there is no commit 3: the archive ends behind commit 2\n".to_string();
    assert_eq!(
        said(&["--record", "3"], &TWO),
        ("end 2\n".to_string(), line)
    );
}

#[test]
fn for_a_spreadsheet() {
    let rows = "commit,station,transaction,reads,writes\n1,0,1,1,1\n2,1,1,1,0\n".to_string();
    let closing = "playback: end 2\n".to_string();
    assert_eq!(said(&["--csv"], &TWO), (rows, closing));
    let (output, errors) = said(&["--record", "1", "--csv"], &TWO);
    assert!(output.ends_with("\nread,8,1,0,0\nwrite,8,1,0,1\n"));
    assert_eq!(errors, format!("playback: {}", reached("1")));
    let (output, errors) = said(&["--csv"], &TWO[..58]);
    assert_eq!(
        output,
        "commit,station,transaction,reads,writes\n1,0,1,1,1\n"
    );
    assert!(errors.starts_with("playback: refused 12 after 1\nplayback: byte 58, "));
}

#[test]
fn exit_statuses() {
    let status =
        |words: &[&str], archive: &[u8]| people::said(words, archive).expect("a text").status;
    assert_eq!(status(&[], &TWO), 0);
    assert_eq!(status(&["--at", "1"], &TWO), 0);
    assert_eq!(status(&[], &TWO[..58]), 1);
    assert_eq!(status(&["--foo"], &TWO), 2);
    assert_eq!(status(&["--at", "3"], &TWO), 2);
    assert_eq!(status(&["--record", "3"], &TWO), 2);
    assert_eq!(status(&["--to", "3"], &TWO), 0);
}
