//! Scripts in the text protocol, with every message taken apart by its places and compared field by field. Where the
//! proved library is linked, its line must reply the same to every command.

use second::line::call::Driver;

/// A message's fields by their places; sets and values that are 0 are left out.
#[derive(Clone, Debug, Default, PartialEq, Eq)]
pub struct Message {
    pub kind: u8,
    pub station: u8,
    pub byte_2: u8,
    pub byte_3: u8,
    pub transaction: u32,
    pub pages: u32,
    pub number: u32,
    /// Page and its set; a single set is page 0's.
    pub sets: Vec<(u8, u8)>,
    /// Object and its value, and its version.
    pub values: Vec<(u8, u64)>,
    pub page_versions: Vec<(u8, u32)>,
    /// Of a commit: entry and version, then the record.
    pub versions: Vec<(u8, u32)>,
    pub record: Option<Record>,
}

#[derive(Clone, Debug, Default, PartialEq, Eq)]
pub struct Record {
    pub commit: u32,
    pub transaction: u32,
    pub station: u8,
    pub kind: u8,
    pub reads: Vec<(u8, u64)>,
    pub writes: Vec<(u8, u64)>,
}

fn little(bytes: &[u8]) -> u64 {
    bytes
        .iter()
        .rev()
        .fold(0, |number, byte| number << 8 | u64::from(*byte))
}

fn words(bytes: &[u8]) -> impl Iterator<Item = u32> + '_ {
    bytes.chunks(4).map(|word| little(word) as u32)
}

fn numbered<T: Default + PartialEq>(all: impl Iterator<Item = T>) -> Vec<(u8, T)> {
    (0..)
        .zip(all)
        .filter(|(_, one)| *one != T::default())
        .collect()
}

impl Message {
    fn of(bytes: &[u8]) -> Message {
        let message = Message {
            kind: bytes[0],
            station: bytes[1],
            byte_2: bytes[2],
            byte_3: bytes[3],
            transaction: little(&bytes[4..8]) as u32,
            pages: little(&bytes[8..12]) as u32,
            number: little(&bytes[12..16]) as u32,
            sets: numbered(bytes[16..48].iter().copied()),
            values: numbered(bytes[48..112].chunks(8).map(little)),
            page_versions: numbered(words(&bytes[112..144])),
            ..Message::default()
        };
        if message.kind != 3 {
            assert_eq!(bytes.len(), 144);
            return message;
        }
        // 4 bytes for each entry, then a record of 16 and 9 for each
        let entries = (bytes.len() - 160) / 13;
        assert_eq!(bytes.len(), 160 + 13 * entries);
        let (versions, record) = bytes[144..].split_at(4 * entries);
        Message {
            versions: numbered(words(versions)),
            record: Some(Record::of(record)),
            ..message
        }
    }
}

impl Record {
    pub fn of(bytes: &[u8]) -> Record {
        let reads = little(&bytes[0..2]) as usize;
        let writes = little(&bytes[2..4]) as usize;
        assert_eq!(bytes.len(), 16 + 9 * (reads + writes));
        assert_eq!(bytes[14..16], [0, 0]);
        let (addresses, values) = bytes[16..].split_at(reads + writes);
        let mut entries = addresses
            .iter()
            .copied()
            .zip(values.chunks(8).map(little))
            .collect::<Vec<_>>();
        let writes = entries.split_off(reads);
        Record {
            commit: little(&bytes[4..8]) as u32,
            transaction: little(&bytes[8..12]) as u32,
            station: bytes[12],
            kind: bytes[13],
            reads: entries,
            writes,
        }
    }
}

fn bytes(hex: &str) -> Vec<u8> {
    hex.as_bytes()
        .chunks(2)
        .map(|pair| u8::from_str_radix(std::str::from_utf8(pair).unwrap(), 16).unwrap())
        .collect()
}

fn list(text: &str) -> Vec<Vec<u8>> {
    match text {
        "-" => Vec::new(),
        _ => text.split(',').map(bytes).collect(),
    }
}

/// What replies to commands.
type Replies = Box<dyn FnMut(&str) -> String>;

/// A line under a script: this implementation's, and the library's where it is linked.
pub struct Line {
    drivers: Vec<Replies>,
}

fn drivers() -> Vec<Replies> {
    let mut second: Driver = Driver::default();
    let second: Replies = Box::new(move |command| second.reply(command));
    #[cfg(feature = "proved")]
    {
        use second::ffi::ends::{Server, Station};
        let mut proved = Driver::<Server, Station>::new();
        vec![second, Box::new(move |command| proved.reply(command))]
    }
    #[cfg(not(feature = "proved"))]
    vec![second]
}

impl Line {
    pub fn fresh(kinds: &str) -> Line {
        let mut line = Line { drivers: drivers() };
        line.replies(&format!("fresh {kinds}"), "ok");
        line
    }

    /// The reply of all.
    pub fn reply(&mut self, command: &str) -> String {
        let mut replies = self.drivers.iter_mut().map(|driver| driver(command));
        let reply = replies.next().expect("one at least");
        for other in replies {
            assert_eq!(other, reply, "{command}: the library replies otherwise");
        }
        reply
    }

    /// A reply that is not taken apart.
    pub fn replies(&mut self, command: &str, expected: &str) {
        assert_eq!(self.reply(command), expected, "{command}");
    }

    /// An accepted call that archives nothing.
    pub fn call(&mut self, command: &str, answer: &str, messages: &[Message]) {
        self.archives(command, answer, messages, &[]);
    }

    pub fn archives(
        &mut self,
        command: &str,
        answer: &str,
        messages: &[Message],
        records: &[Record],
    ) {
        let reply = self.reply(command);
        let (head, rest) = reply.split_once(" msgs ").expect(&reply);
        let (sent, archived) = rest.split_once(" recs ").expect(&reply);
        assert_eq!(head, format!("ok {answer}"), "{command}");
        let sent: Vec<Message> = list(sent).iter().map(|bytes| Message::of(bytes)).collect();
        assert_eq!(sent, messages, "{command}");
        let archived: Vec<Record> = list(archived).iter().map(|r| Record::of(r)).collect();
        assert_eq!(archived, records, "{command}");
    }

    /// Accepted calls whose messages do not matter, by semicolons.
    pub fn run(&mut self, commands: &str) {
        for command in commands.split(';') {
            let reply = self.reply(command.trim());
            assert!(reply.starts_with("ok"), "{command}: {reply}");
        }
    }

    /// A raw message to the server that is refused.
    pub fn server_refuses(&mut self, message: &Message, number: u8) {
        self.replies(
            &format!("serverraw {}", message.hex()),
            &format!("refused {number}"),
        );
    }

    /// A raw message to the station it names that is refused.
    pub fn station_refuses(&mut self, message: &Message, number: u8) {
        let command = format!("stationraw {} {}", message.station, message.hex());
        self.replies(&command, &format!("refused {number}"));
    }

    pub fn server_takes(&mut self, message: &Message, messages: &[Message]) {
        self.call(&format!("serverraw {}", message.hex()), "none", messages);
    }

    pub fn station_takes(&mut self, message: &Message, answer: &str, messages: &[Message]) {
        let command = format!("stationraw {} {}", message.station, message.hex());
        self.call(&command, answer, messages);
    }
}

fn message(kind: u8, station: u8) -> Message {
    Message {
        kind,
        station,
        ..Message::default()
    }
}

pub fn read(station: u8, page: u8, object: u8, transaction: u32) -> Message {
    Message {
        byte_2: page,
        byte_3: object,
        transaction,
        ..message(1, station)
    }
}

/// A write request for one object.
pub fn write(station: u8, page: u8, object: u8, transaction: u32) -> Message {
    writes(station, page, 1 << object, transaction)
}

pub fn writes(station: u8, page: u8, set: u8, transaction: u32) -> Message {
    Message {
        byte_2: page,
        transaction,
        sets: one_set(set),
        ..message(2, station)
    }
}

pub fn commit(pages: u32, versions: &[(u8, u32)], record: &Record) -> Message {
    Message {
        pages,
        transaction: record.transaction,
        versions: versions.to_vec(),
        record: Some(Record {
            commit: 0,
            ..record.clone()
        }),
        ..message(3, record.station)
    }
}

pub fn abort(station: u8, transaction: u32) -> Message {
    Message {
        transaction,
        ..message(4, station)
    }
}

pub fn purge(station: u8, page: u8) -> Message {
    Message {
        byte_2: page,
        ..message(5, station)
    }
}

pub fn busy(station: u8, requester: u8, transaction: u32) -> Message {
    Message {
        byte_2: requester,
        transaction,
        ..message(6, station)
    }
}

pub fn done(station: u8, requester: u8, transaction: u32, dropped: u32) -> Message {
    Message {
        byte_2: requester,
        transaction,
        pages: dropped,
        ..message(7, station)
    }
}

fn one_set(set: u8) -> Vec<(u8, u8)> {
    numbered([set].into_iter())
}

pub fn written_set(station: u8, page: u8, transaction: u32, set: u8) -> Message {
    Message {
        byte_2: page,
        transaction,
        sets: one_set(set),
        ..message(8, station)
    }
}

/// A 16, 17 or 18 with nothing unavailable, all versions and all values 0; only a 16 names the object.
pub fn page(kind: u8, station: u8, page: u8, object: u8, transaction: u32) -> Message {
    let named = if kind == 16 { object } else { 0 };
    Message {
        kind,
        ..read(station, page, named, transaction)
    }
}

impl Message {
    pub fn page_versions(self, versions: &[(u8, u32)]) -> Message {
        Message {
            page_versions: versions.to_vec(),
            ..self
        }
    }

    pub fn unavailable(self, set: u8) -> Message {
        Message {
            sets: one_set(set),
            ..self
        }
    }

    pub fn values(self, values: &[(u8, u64)]) -> Message {
        Message {
            values: values.to_vec(),
            ..self
        }
    }

    /// The bytes in hexadecimal, for raw calls.
    pub fn hex(&self) -> String {
        let mut bytes = vec![self.kind, self.station, self.byte_2, self.byte_3];
        bytes.extend(self.transaction.to_le_bytes());
        bytes.extend(self.pages.to_le_bytes());
        bytes.extend(self.number.to_le_bytes());
        bytes.extend(spread::<u8, 32>(&self.sets));
        bytes.extend(
            spread::<u64, 8>(&self.values)
                .iter()
                .flat_map(|v| v.to_le_bytes()),
        );
        bytes.extend(
            spread::<u32, 8>(&self.page_versions)
                .iter()
                .flat_map(|v| v.to_le_bytes()),
        );
        if let Some(record) = &self.record {
            let entries = record.reads.len() + record.writes.len();
            let versions = spread::<u32, 600>(&self.versions);
            bytes.extend(versions[..entries].iter().flat_map(|v| v.to_le_bytes()));
            bytes.extend(record.bytes());
        }
        hex(&bytes)
    }
}

fn spread<T: Copy + Default, const N: usize>(numbered: &[(u8, T)]) -> [T; N] {
    let mut all = [T::default(); N];
    for (at, one) in numbered {
        all[*at as usize] = *one;
    }
    all
}

pub fn hex(bytes: &[u8]) -> String {
    bytes.iter().map(|byte| format!("{byte:02x}")).collect()
}

pub fn de_escalate(station: u8, page: u8, transaction: u32) -> Message {
    Message {
        byte_2: page,
        transaction,
        ..message(19, station)
    }
}

pub fn callback(station: u8, requester: u8, transaction: u32, sets: &[(u8, u8)]) -> Message {
    Message {
        byte_2: requester,
        transaction,
        sets: sets.to_vec(),
        ..message(20, station)
    }
}

pub fn committed(station: u8, transaction: u32, number: u32) -> Message {
    Message {
        transaction,
        number,
        ..message(21, station)
    }
}

pub fn aborted(station: u8, transaction: u32, cause: u8) -> Message {
    Message {
        transaction,
        byte_3: cause,
        ..message(22, station)
    }
}

pub fn invalidate(station: u8, sets: &[(u8, u8)]) -> Message {
    Message {
        sets: sets.to_vec(),
        ..message(23, station)
    }
}

/// A record of the first transaction of a station.
pub fn record(commit: u32, station: u8, kind: u8) -> Record {
    Record {
        commit,
        transaction: 1,
        station,
        kind,
        ..Record::default()
    }
}

impl Record {
    pub fn bytes(&self) -> Vec<u8> {
        let mut bytes = Vec::new();
        bytes.extend((self.reads.len() as u16).to_le_bytes());
        bytes.extend((self.writes.len() as u16).to_le_bytes());
        bytes.extend(self.commit.to_le_bytes());
        bytes.extend(self.transaction.to_le_bytes());
        bytes.extend([self.station, self.kind, 0, 0]);
        let entries = || self.reads.iter().chain(&self.writes);
        bytes.extend(entries().map(|(address, _)| *address));
        bytes.extend(entries().flat_map(|(_, value)| value.to_le_bytes()));
        bytes
    }

    pub fn reads(self, reads: &[(u8, u64)]) -> Record {
        Record {
            reads: reads.to_vec(),
            ..self
        }
    }

    pub fn writes(self, writes: &[(u8, u64)]) -> Record {
        Record {
            writes: writes.to_vec(),
            ..self
        }
    }
}
