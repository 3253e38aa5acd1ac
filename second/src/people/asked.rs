//! What the arguments ask for.

/// Bytes of an argument: a longer one is not taken.
const LONGEST_WORD: usize = 4_096;

#[derive(Clone, Copy, Debug, PartialEq, Eq)]
pub enum Listing {
    Commits,
    Totals,
    At(u32),
    Counter(u8),
    Record(u32),
    Help,
    Version,
}

#[derive(Clone, Debug, PartialEq, Eq)]
pub struct Asked {
    pub listing: Listing,
    /// The first commit that is listed.
    pub from: u32,
    /// The last that is looked at.
    pub to: Option<u32>,
    pub csv: bool,
}

impl Asked {
    /// Every commit, as without an argument.
    pub const COMMITS: Asked = Asked {
        listing: Listing::Commits,
        from: 0,
        to: None,
        csv: false,
    };

    /// What the words ask for, or the one that is not understood.
    pub fn by(words: &[&str]) -> Result<Asked, String> {
        let mut asked = Asked::COMMITS;
        let mut chosen = false;
        let mut named = false;
        let mut range = None;
        let mut rest = words.iter().map(|word| match word.len() {
            0..=LONGEST_WORD => *word,
            _ => "",
        });
        while let Some(word) = rest.next() {
            let mut value = |most: u32, least: u32| {
                let next = rest.next();
                let number = next.and_then(number);
                let fits = number.filter(|n| (least..=most).contains(n));
                fits.ok_or(next.unwrap_or(word).to_string())
            };
            match word {
                "--csv" => asked.csv = true,
                "--status" => {}
                "--from" => {
                    range = Some(word);
                    asked.from = value(u32::MAX, 0)?;
                }
                "--to" => {
                    range = Some(word);
                    asked.to = Some(value(u32::MAX, 0)?);
                }
                "--totals" | "--at" | "--counter" | "--record" | "--help" | "--version" => {
                    if chosen {
                        return Err(word.to_string());
                    }
                    chosen = true;
                    asked.listing = match word {
                        "--totals" => Listing::Totals,
                        "--at" => Listing::At(value(u32::MAX, 0)?),
                        "--counter" => Listing::Counter(value(255, 0)? as u8),
                        "--record" => Listing::Record(value(u32::MAX, 1)?),
                        "--help" => Listing::Help,
                        _ => Listing::Version,
                    };
                }
                _ if named || word.is_empty() || word.starts_with('-') && word != "-" => {
                    return Err(word.to_string());
                }
                _ => named = true,
            }
        }
        asked.settled(range)
    }

    /// A range is one of commits or of a counter's changes, and does not end before it begins.
    fn settled(mut self, range: Option<&str>) -> Result<Asked, String> {
        let ranges = matches!(self.listing, Listing::Commits | Listing::Counter(_));
        let backwards = self.to.is_some_and(|to| to < self.from);
        if let Some(word) = range.filter(|_| !ranges || backwards) {
            return Err(word.to_string());
        }
        match self.listing {
            Listing::At(commit) => self.to = Some(commit),
            Listing::Record(commit) => (self.from, self.to) = (commit, Some(commit)),
            _ => {}
        }
        Ok(self)
    }

    /// Whether the archive is looked at.
    pub fn plays(&self) -> bool {
        !matches!(self.listing, Listing::Help | Listing::Version)
    }
}

/// Digits alone: `parse` would take a sign.
fn number(word: &str) -> Option<u32> {
    let digits = word.bytes().all(|byte| byte.is_ascii_digit());
    word.parse().ok().filter(|_| digits)
}
