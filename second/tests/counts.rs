//! The second implementation of the two readers on docs/COUNTS.md's examples.

use second::archive::Playback;
use second::counts::{self, Counts};
use second::numbers::END;
use second::samples;

fn c12() -> Vec<u8> {
    samples::named("c12").expect("a sample")
}

#[test]
fn c12_gives_the_counts_of_the_document() {
    let mut out = vec![0; counts::LONGEST];
    assert_eq!(counts::counts_at(&c12(), 1, &mut out), 0);
    assert_eq!(out[..15], [1, 0, 0, 0, 1, 0, 8, 1, 0, 0, 0, 0, 0, 0, 0]);
    assert_eq!(counts::counts_at(&c12(), 3, &mut out), END);
}

#[test]
fn a_counts_file_is_read_as_written() {
    let (file, number) = counts::file_of(&c12());
    assert_eq!((file.len(), number), (21, 0));
    let first = Counts::decode(&file).expect("counts");
    assert_eq!(first.writes, [(8, 1)]);
    assert_eq!(first.encode(), file[..15]);
}

#[test]
fn a_short_output_is_refused_first() {
    let mut playback = Playback::FRESH;
    let mut out = vec![0; counts::LONGEST - 1];
    assert_eq!(counts::counts_record(&[], &mut playback, &mut out), 1);
    assert_eq!(counts::service_record(&[], &mut playback, &mut [0; 7]), 1);
}
