//! The turn-giver on the cases of document 02's wish 12.

use second::turns::{next, Line, LINES};

/// Eight lines from `SHARE/GIVEN`, `*` behind the waiting ones.
fn lines(text: &str) -> [Line; LINES] {
    let mut lines = text.split(' ').map(|word| {
        let (share, given) = word
            .trim_end_matches('*')
            .split_once('/')
            .expect("a share and a count");
        Line {
            share: share.parse().expect("a share"),
            given: given.parse().expect("a count"),
            waiting: u8::from(word.ends_with('*')),
        }
    });
    let lines = std::array::from_fn(|_| lines.next().expect("eight lines"));
    lines
}

/// What a turn answers, and the lines afterwards.
fn turn(before: &str, answer: Result<usize, u32>, after: &str) {
    let mut given = lines(before);
    assert_eq!(next(&mut given), answer, "{before}");
    assert_eq!(given, lines(after), "{before}");
}

#[test]
fn the_lowest_waiting_line_with_share_left() {
    turn(
        "1/0* 2/0* 3/0* 4/0* 1/0* 2/0* 3/0* 4/0*",
        Ok(0),
        "1/1* 2/0* 3/0* 4/0* 1/0* 2/0* 3/0* 4/0*",
    );
    turn(
        "1/1* 2/1* 3/0* 4/0* 1/0* 2/0* 3/0* 4/0*",
        Ok(1),
        "1/1* 2/2* 3/0* 4/0* 1/0* 2/0* 3/0* 4/0*",
    );
    turn(
        "1/0 2/1 3/0 4/2 1/0 2/1* 3/0 4/0*",
        Ok(5),
        "1/0 2/1 3/0 4/2 1/0 2/2* 3/0 4/0*",
    );
}

#[test]
fn a_new_round() {
    turn(
        "1/1 2/2* 3/0 4/4 1/1 2/1 3/3* 4/4*",
        Ok(1),
        "1/0 2/1* 3/0 4/0 1/0 2/0 3/0* 4/0*",
    );
    turn(
        "1/0 2/0 3/0 4/0 1/0 2/0 3/0 4/4*",
        Ok(7),
        "1/0 2/0 3/0 4/0 1/0 2/0 3/0 4/1*",
    );
}

#[test]
fn refused_in_order_and_without_a_change() {
    for (before, number) in [
        ("1/2* 2/0 3/0 4/0 1/0 2/0 3/0 9/0", 1),
        ("1/0* 2/0 3/0 5/0 1/0 2/0 3/0 4/0", 19),
        ("1/0 2/0 3/0 4/0 0/0 2/0 3/0 4/0", 19),
        ("1/1 2/2 3/3 4/4 1/1 2/2 3/3 4/4", 20),
    ] {
        turn(before, Err(number), before);
    }
    let mut marked = lines("1/0* 2/0 3/0 4/0 1/0 2/0 3/0 4/0");
    marked[7].waiting = 2;
    assert_eq!(next(&mut marked), Err(1));
    assert_eq!(next(&mut marked[..7]), Err(1));
}

/// 28 turns of this round, 28 of the next, and then line 7.
#[test]
fn the_57th_turn() {
    let mut given = lines("4/0* 4/0* 4/0* 4/0* 4/0* 4/0* 4/0* 4/4*");
    let turns: Vec<usize> = (0..57).map(|_| next(&mut given).unwrap()).collect();
    assert_eq!(turns.iter().position(|line| *line == 7), Some(56));
}
