//! A batch of random crossings: all checks hold, and everything is reached.

use second::line::counts::Counts;
use second::line::hot::{self, Hot};
use second::line::keeps::{Place, Tally};
use second::line::neighbours;
use second::line::runs;
use second::line::shorten::shorten;
use second::line::Kind;

#[test]
fn reaches_everything() {
    let mut counts = Counts::default();
    for seed in 1..=1500 {
        if let Err(failed) = runs::run(seed, 300, &mut counts) {
            let short = failed.shortened();
            panic!("seed {seed}: {:?}\n{}", short.failure, short.script());
        }
    }
    assert_eq!(counts.missing(), None, "{counts}");
    assert!(counts.victims > 100, "{counts}");
    assert!(counts.claimed > 800, "{counts}");
    assert!(counts.longest_list >= 6, "{counts}");
    assert!(counts.ignored_16 > 0 && counts.empty_8 > 0, "{counts}");
}

#[test]
fn shortens_to_what_matters() {
    let calls: Vec<u32> = (0..200).collect();
    let fails = |kept: &[u32]| kept.contains(&17) && kept.contains(&170);
    assert_eq!(shorten(&calls, fails), [17, 170]);
}

/// Document 02, wish 2: on hot counters the same station is beaten less often in a row where it keeps its age.
#[test]
fn beaten_in_a_row() {
    let [mut forgotten, mut kept] = [Hot::default(); 2];
    for seed in 1..=20 {
        forgotten.join(hot::forgotten(seed, 20_000));
        kept.join(hot::kept(seed, 20_000));
    }
    assert!(forgotten.panel().beaten > 100 && kept.panel().beaten > 100);
    assert!(kept.panel().most_in_a_row < forgotten.panel().most_in_a_row);
    assert!(kept.heads().most_in_a_row < forgotten.heads().most_in_a_row);
}

/// Document 02, wish 6: heads on neighbouring objects abort each other where versions are those of pages, and never where they
/// are those of objects.
#[test]
fn neighbours_abort_nobody() {
    for heads in [2, 8] {
        let by_page = neighbours::by_page(heads, 1, 20_000);
        let by_object = neighbours::by_object(heads, 1, 20_000);
        assert!(by_page.aborts > by_page.commits / 2);
        assert_eq!(by_object.aborts, 0);
        assert!(by_object.commits > by_page.commits);
    }
}

/// Document 02, wish 10: alone on its counters a keeping head needs two messages for each commit, its 3 and its 21, but for
/// the first; where heads meet often it needs more than a locking one.
#[test]
fn keeping_heads() {
    let each = |kind: Kind, place: Place| {
        let mut tally = Tally::of(kind, place, 4);
        (1..=5).for_each(|seed| tally.run(seed, 20_000));
        tally
    };
    let [locking, keeping] = [Kind::Locking, Kind::Keeping].map(|kind| each(kind, Place::Alone));
    assert_eq!([locking.aborts, keeping.aborts], [0, 0]);
    // one request in each of the five runs for each of the four heads
    assert_eq!(keeping.requests, 20);
    assert!(locking.requests >= locking.commits);
    assert!(keeping.each() < 2.1 && locking.each() > 3.9);
    let [locking, keeping] =
        [Kind::Locking, Kind::Keeping].map(|kind| each(kind, Place::Anywhere).each());
    assert!(keeping > locking, "{keeping} {locking}");
}
