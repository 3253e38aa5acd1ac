//! Flips every bit of two samples, one at a time, and prints what becomes of them: the table in docs/PLAYBACK.md.

use second::people::Flips;
use second::samples;

fn main() {
    for name in ["c12", "longer"] {
        let archive = samples::named(name).expect("a sample");
        println!("{}", Flips::of(&archive).row(name));
    }
}
