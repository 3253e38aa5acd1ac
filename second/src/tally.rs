//! Counts by name or number, for reports.

use std::collections::BTreeMap;
use std::fmt::{self, Debug, Display, Formatter};
use std::io;
use std::process;

/// How often each of these.
pub struct Tally<K>(BTreeMap<K, u64>);

impl<K> Default for Tally<K> {
    fn default() -> Tally<K> {
        Tally(BTreeMap::new())
    }
}

impl<K: Ord> Tally<K> {
    pub fn count(&mut self, one: K) {
        *self.0.entry(one).or_default() += 1;
    }

    pub fn has(&self, one: &K) -> bool {
        self.0.contains_key(one)
    }
}

impl<K: Display> Display for Tally<K> {
    fn fmt(&self, f: &mut Formatter<'_>) -> fmt::Result {
        let counts: Vec<String> = self.0.iter().map(|(k, n)| format!("{k}: {n}")).collect();
        f.write_str(&counts.join(", "))
    }
}

/// The calls of a run, none of which differed, and what they reached.
pub struct Run<K> {
    name: &'static str,
    pub seed: u64,
    pub count: u64,
    pub tally: Tally<K>,
}

impl<K: Ord + Debug + Display> Run<K> {
    pub fn new(name: &'static str, seed: u64) -> Run<K> {
        println!("seed {seed}");
        Run {
            name,
            seed,
            count: 0,
            tally: Tally::default(),
        }
    }

    /// Says what was reached. From `enough` calls on all of `wanted` must be.
    pub fn print(&self, enough: u64, wanted: impl IntoIterator<Item = K>) {
        println!(
            "{} calls, no difference; reached:\n{}",
            self.count, self.tally
        );
        let missing: Vec<K> = wanted
            .into_iter()
            .filter(|one| !self.tally.has(one))
            .collect();
        if self.count >= enough && !missing.is_empty() {
            eprintln!("{}: not reached: {missing:?}", self.name);
            process::exit(1)
        }
    }

    /// Compares a program too, if one is named.
    pub fn program(&self, program: Option<&str>, compare: impl FnOnce(&str) -> io::Result<()>) {
        let Some(program) = program else { return };
        if let Err(error) = compare(program) {
            eprintln!("{}: {program}: {error}", self.name);
            process::exit(1)
        }
    }
}
