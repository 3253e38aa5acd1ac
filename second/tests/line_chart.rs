//! Charts of scripts: what is drawn is what happened, and nothing lies on anything else.

use second::chart::{draw, draw_from, Fault};

/// A busy callback, a refused call and a note.
const BUSY: &str = "\
# A busy callback
# 0 waits for 2.
fresh 01000000
begin 2
read 2 8
server 2
station 2
begin 0
write 0 8 5
server 0
station 2
server 2
# the owner of 0 can do nothing
read 0 9
commit 2
server 2
station 2
server 2
station 0
";

fn svg(script: &str) -> String {
    let drawn = draw(script).unwrap();
    assert_eq!(drawn.clashes, 0, "{script}");
    drawn.svg
}

fn fault(script: &str) -> Fault {
    draw(script).err().unwrap()
}

/// Arrows that arrive have a head, those under way are dashed.
fn arrows(svg: &str) -> (usize, usize) {
    let count = |piece: &str| svg.matches(piece).count();
    (count("<path d=\"M"), count("stroke-dasharray"))
}

#[test]
fn an_arrow_for_each_message() {
    let svg = svg(BUSY);
    assert_eq!(arrows(&svg), (9, 0));
    for label in [
        "1 read 8 (t1)",
        "16 page 1 (t1)",
        "2 write {8} (t1)",
        "20 callback {8} for 0 (t1)",
        "6 busy for 0 (t1)",
        "3 commit (t1): read 8",
        "21 committed (t1), number 1",
        "7 done for 0 (t1), drops page 1",
        "18 page 1 (t1), whole lock",
    ] {
        assert_eq!(svg.matches(&format!(">{label}<")).count(), 1, "{label}");
    }
}

#[test]
fn owners_notes_and_states() {
    let svg = svg(BUSY);
    for text in [
        "A busy callback",
        "0 waits for 2.",
        "the owner of 0 can do nothing",
        "refused 7",
        "waits",
        "value 0",
        "written",
        "committed 1",
        "keeps the callback",
        "lists 2 for page 1",
        "0 waits: 7 owed by 2",
        "0 waits: 2 busy",
        "archives commit 1",
        "0 locks page 1 whole",
        "unlists 2 for page 1",
    ] {
        assert!(svg.contains(&format!(">{text}<")), "{text}");
    }
    assert!(svg.contains("station 0") && svg.contains("station 2"));
    assert!(!svg.contains("station 1"));
}

#[test]
fn the_other_kinds_in_words() {
    let svg = svg("\
# & < >
fresh 01000000
begin 1
read 1 8
server 1
station 1
write 1 17 4
server 1
station 1
begin 0
write 0 8 5
server 0
station 0
begin 2
read 2 9
server 2
station 0
server 0
station 2
purge 2 1
abort 2
server 2
purge 2 1
server 2
commit 0
server 0
station 0
station 1
begin 1
commit 1
server 1
");
    for label in [
        "16 page 1 (t1), versions 0",
        "19 de-escalate page 1 (t1)",
        "8 written on page 1 (t1): {8}",
        "16 page 1 (t1), unavailable {8}",
        "4 abort (t1)",
        "5 purge page 1",
        "23 invalidate {8}",
        "3 commit (t2)",
        "21 committed (t2), number 2",
    ] {
        assert!(svg.contains(&format!(">{label}<")), "{label}");
    }
    assert!(svg.contains("refused 10"));
    assert!(svg.contains("aborted, cause 2"));
    assert!(svg.contains("&amp; &lt; &gt;"));
    // the last 21 is still under way
    assert_eq!(arrows(&svg).1, 1);
}

#[test]
fn raw_messages() {
    let purge = format!("050201{}", "00".repeat(141));
    let svg = svg(&format!(
        "fresh 00000000\nbegin 2\nserverraw {purge}\nserverraw 05\nstationraw 2 {purge}\n"
    ));
    assert!(svg.contains("raw 5 purge"));
    assert!(svg.contains("refused 2"));
    assert!(svg.contains("refused 3"));
}

#[test]
fn a_later_stretch() {
    // behind the owner's write, whose request is under way
    let drawn = draw_from(BUSY, 6).unwrap();
    assert_eq!(drawn.clashes, 0);
    let svg = drawn.svg;
    // of the nine messages the 1 and the 16 are over; the 2 comes from above
    assert_eq!(arrows(&svg), (7, 0));
    assert!(svg.contains(">2 write {8} (t1)<") && !svg.contains(">1 read 8 (t1)<"));
    assert!(svg.contains("A busy callback") && svg.contains("the owner of 0 can do nothing"));
    assert!(!svg.contains("write 8=5") && svg.contains("refused 7"));
    // behind the 20, and behind the note
    let svg = draw_from(BUSY, 10).unwrap().svg;
    assert!(!svg.contains("the owner of 0 can do nothing") && !svg.contains("20 callback"));
    assert_eq!(draw_from(BUSY, 0).unwrap().svg, self::svg(BUSY));
}

#[test]
fn a_mark_says_where_the_drawing_begins() {
    let marked = BUSY.replace("write 0 8 5\n", "write 0 8 5\n#>\n");
    let drawn = draw(&marked).unwrap();
    assert_eq!(drawn.svg, draw_from(BUSY, 6).unwrap().svg);
    assert_ne!(drawn.svg, svg(BUSY));
}

#[test]
fn what_is_under_way_all_along_is_not_drawn() {
    let script = "fresh 00000000\nbegin 0\nread 0 8\nbegin 1\nread 1 9\nserver 1\nstation 1\n";
    let svg = draw_from(script, 4).unwrap().svg;
    assert_eq!(arrows(&svg), (2, 0));
    assert!(svg.contains("1 read 9") && !svg.contains("1 read 8"));
}

#[test]
fn the_same_script_gives_the_same_picture() {
    assert_eq!(svg(BUSY), svg(BUSY));
}

#[test]
fn no_wider_than_900() {
    let three = "fresh 00000000\nbegin 2\nread 2 8\nserver 2\nstation 2\nbegin 0\nwrite 0 8 5\nserver 0\nstation 2\n\
                 server 2\nbegin 3\nread 3 9\nserver 3\nstation 3\nabort 2\nserver 2\nserver 2\nstation 0\n";
    for script in [BUSY, three] {
        let svg = svg(script);
        let (_, rest) = svg.split_once("width=\"").unwrap();
        let (width, _) = rest.split_once('"').unwrap();
        assert!(width.parse::<u32>().unwrap() <= 900);
        assert!(!svg.contains("<script") && !svg.contains("href"));
    }
}

#[test]
fn faults_name_their_line() {
    assert_eq!(fault("begin 0\n").line, 1);
    assert_eq!(fault("fresh 00000000\nnothing\n").line, 2);
    assert_eq!(fault("fresh 00000000\n\n# a note\nserver 0\n").line, 4);
    assert_eq!(fault("fresh 00000000\nfresh 00000000\n").line, 2);
    assert!(fault("# a title\n").what.contains("fresh"));
}
