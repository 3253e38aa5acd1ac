//! Command lines: words, `--name VALUE` and `--name`.

use std::collections::HashMap;
use std::process;
use std::time::{Duration, Instant, SystemTime, UNIX_EPOCH};

pub struct Options {
    usage: &'static str,
    words: Vec<String>,
    values: HashMap<&'static str, String>,
}

impl Options {
    /// The program's own command line; one that does not fit ends the program with its usage.
    pub fn read(
        usage: &'static str,
        with_value: &[&'static str],
        plain: &[&'static str],
    ) -> Options {
        let mut options = Options {
            usage,
            words: Vec::new(),
            values: HashMap::new(),
        };
        let mut arguments = std::env::args().skip(1);
        while let Some(argument) = arguments.next() {
            if let Some(name) = with_value.iter().find(|name| **name == argument) {
                let value = arguments.next();
                let value = value.unwrap_or_else(|| options.unclear(&argument, "wants a value"));
                options.values.insert(name, value);
            } else if let Some(name) = plain.iter().find(|name| **name == argument) {
                options.values.insert(name, String::new());
            } else if argument.starts_with('-') {
                options.unclear(&argument, "is no option of this program")
            } else {
                options.words.push(argument);
            }
        }
        options
    }

    /// For programs that take no words.
    pub fn without_words(self) -> Options {
        if let Some(word) = self.words.first() {
            self.unclear(word, "is no option")
        }
        self
    }

    /// Names what is not understood, then ends the program with its usage.
    pub fn unclear(&self, word: &str, why: &str) -> ! {
        eprintln!("{word} {why}");
        self.misused()
    }

    pub fn misused(&self) -> ! {
        eprintln!("usage: {}", self.usage);
        process::exit(2)
    }

    pub fn words(&self) -> &[String] {
        &self.words
    }

    pub fn has(&self, name: &str) -> bool {
        self.values.contains_key(name)
    }

    pub fn text(&self, name: &str) -> Option<&str> {
        self.values.get(name).map(String::as_str)
    }

    pub fn number(&self, name: &str, default: u64) -> u64 {
        self.text(name).map_or(default, |text| {
            let unclear = |_| self.unclear(&format!("{name} {text}"), "is no number that it takes");
            text.parse().unwrap_or_else(unclear)
        })
    }

    /// A seed: a number, or `random` for the clock's.
    pub fn seed(&self, name: &str, default: u64) -> u64 {
        match self.text(name) {
            Some("random") => clock(),
            _ => self.number(name, default),
        }
    }
}

fn clock() -> u64 {
    SystemTime::now()
        .duration_since(UNIX_EPOCH)
        .map_or(0, |time| time.as_nanos() as u64)
}

/// How long a program goes on.
pub struct Limit {
    cases: u64,
    end: Option<Instant>,
}

impl Options {
    /// So many cases (`--cases`), or instead so long (`--seconds`).
    pub fn limit(&self, cases: u64) -> Limit {
        let seconds = self.text("--seconds").map(|_| self.number("--seconds", 0));
        Limit {
            cases: self.number("--cases", cases),
            end: seconds.map(|seconds| Instant::now() + Duration::from_secs(seconds)),
        }
    }
}

impl Limit {
    /// Whether there is more to do behind so many cases.
    pub fn goes_on(&self, count: u64) -> bool {
        match self.end {
            Some(end) => Instant::now() < end,
            None => count < self.cases,
        }
    }
}
