//! Demand 3, from the archive and from what owners were told: replayed in commit order from zeros, every committed
//! transaction saw and left exactly what its record says, and nobody else left a trace. Nothing of the steps is used.

use super::owner::{Owner, Told};
use super::sets::{ADDRESSES, STATIONS};
use super::Kind;
use crate::record::Record;
use std::collections::{BTreeMap, HashMap};

/// A whole line at its end: every transaction over, nothing under way.
pub struct Ended<'a> {
    pub kinds: [Kind; STATIONS],
    pub started_after: u32,
    pub owners: &'a [Owner; STATIONS],
    pub archive: &'a [Vec<u8>],
    pub values: &'a [u64; ADDRESSES],
    pub versions: &'a [u32; ADDRESSES],
}

/// A transaction as its owner was told.
#[derive(Default)]
struct Story {
    accesses: Vec<Access>,
    commit: Option<u32>,
}

#[derive(Clone, Copy)]
enum Access {
    Read(u8, u64),
    Write(u8, u64),
}

/// By station and transaction number.
type Stories = HashMap<(u8, u32), Story>;

/// The pages as the records so far leave them.
struct Replay {
    values: [u64; ADDRESSES],
    versions: [u32; ADDRESSES],
    last: u32,
}

/// What is false, in words; `Ok` if demand 3 holds.
pub fn check(ended: &Ended) -> Result<(), String> {
    let mut stories = Stories::new();
    for (station, owner) in ended.owners.iter().enumerate() {
        tell(station as u8, owner, &mut stories)?;
    }
    let mut replay = Replay {
        values: [0; ADDRESSES],
        versions: [0; ADDRESSES],
        last: ended.started_after,
    };
    for bytes in ended.archive {
        let record = whole_record(bytes)?;
        let story = stories.remove(&(record.station, record.transaction));
        replay.record(&record, story.as_ref(), &ended.kinds)?;
    }
    // "every commit told has exactly one record with its number": those with one are gone from the stories
    if let Some((id, _)) = stories.iter().find(|(_, story)| story.commit.is_some()) {
        return Err(format!("committed {id:?} has no record of its own"));
    }
    replay.pages_equal(ended)
}

/// The transactions of one station, from its owner's list.
fn tell(station: u8, owner: &Owner, stories: &mut Stories) -> Result<(), String> {
    let mut open: Option<(u32, Story)> = None;
    for told in owner.told() {
        match (*told, open.take()) {
            (Told::Begun(transaction), None) => open = Some((transaction, Story::default())),
            (Told::Read(address, value), Some(story)) => {
                open = Some(with_access(story, Access::Read(address, value)))
            }
            (Told::Wrote(address, value), Some(story)) => {
                open = Some(with_access(story, Access::Write(address, value)))
            }
            (Told::Committed(commit), Some((transaction, mut story))) => {
                story.commit = Some(commit);
                finish(station, transaction, story, stories)?;
            }
            (Told::Aborted, Some((transaction, story))) => {
                finish(station, transaction, story, stories)?
            }
            (told, _) => return Err(format!("station {station}'s owner was told {told:?}")),
        }
    }
    match open {
        None => Ok(()),
        Some((transaction, _)) => Err(format!("station {station}: {transaction} is still open")),
    }
}

fn with_access((transaction, mut story): (u32, Story), access: Access) -> (u32, Story) {
    story.accesses.push(access);
    (transaction, story)
}

fn finish(
    station: u8,
    transaction: u32,
    story: Story,
    stories: &mut Stories,
) -> Result<(), String> {
    match stories.insert((station, transaction), story) {
        None => Ok(()),
        Some(_) => Err(format!("station {station} began {transaction} twice")),
    }
}

/// The bytes are one record and nothing else.
fn whole_record(bytes: &[u8]) -> Result<Record, String> {
    match Record::decode(bytes) {
        Ok(record) if record.encode() == bytes => Ok(record),
        _ => Err(format!("a record is broken: {bytes:02x?}")),
    }
}

impl Replay {
    fn record(
        &mut self,
        record: &Record,
        story: Option<&Story>,
        kinds: &[Kind; STATIONS],
    ) -> Result<(), String> {
        let id = (record.station, record.transaction);
        let said = |what: &str| Err(format!("record {} of {id:?}: {what}", record.commit));
        if Some(record.commit) != self.last.checked_add(1) {
            return said("its number is not the next");
        }
        if record.kind != kinds[record.station as usize] as u8 {
            return said("another kind of station");
        }
        let Some(story) = story else {
            return said("no such transaction, or a second record of it");
        };
        if story.commit != Some(record.commit) {
            return said("its owner was not told this commit");
        }
        let (reads, writes) = self.accesses(story)?;
        if !reads.into_iter().eq(record.reads.iter().copied()) {
            return said("reads differ from those told");
        }
        if !writes.into_iter().eq(record.writes.iter().copied()) {
            return said("writes differ from those told");
        }
        self.apply(record);
        Ok(())
    }

    /// First reads of objects not yet written, and last writes; "each read told in a committed transaction is the
    /// value that the earlier records leave or its own last write".
    #[allow(clippy::type_complexity)]
    fn accesses(&self, story: &Story) -> Result<(BTreeMap<u8, u64>, BTreeMap<u8, u64>), String> {
        let mut reads = BTreeMap::new();
        let mut writes = BTreeMap::new();
        for access in &story.accesses {
            match *access {
                Access::Write(address, value) => {
                    writes.insert(address, value);
                }
                Access::Read(address, value) => {
                    let left = self.values[address as usize];
                    let own = writes.get(&address).copied();
                    if value != own.unwrap_or(left) {
                        return Err(format!(
                            "commit {:?} read {value} from {address}; the records before leave {left}, own write {own:?}",
                            story.commit
                        ));
                    }
                    if own.is_none() {
                        reads.entry(address).or_insert(value);
                    }
                }
            }
        }
        Ok((reads, writes))
    }

    fn apply(&mut self, record: &Record) {
        self.last = record.commit;
        for (address, value) in &record.writes {
            self.values[*address as usize] = *value;
            self.versions[*address as usize] = record.commit;
        }
    }

    /// Pages end equal to the server's.
    fn pages_equal(&self, ended: &Ended) -> Result<(), String> {
        if self.values != *ended.values {
            return Err(String::from(
                "the server's values are not the replayed ones",
            ));
        }
        if self.versions != *ended.versions {
            return Err(String::from(
                "the server's versions are not the replayed ones",
            ));
        }
        Ok(())
    }
}
