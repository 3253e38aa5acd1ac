//! Gives each call to both implementations and compares the number and every byte of the output, its guards too.

use second::block;
use second::ffi::blocks as proved;
use second::show::hex;
use second::Refusal;
use std::collections::BTreeMap;
use std::process;

/// Bytes before and behind what is lent.
const GUARD: usize = 16;

pub struct Judge {
    seed: u64,
    calls: u64,
    numbers: BTreeMap<(&'static str, u32), u64>,
    buffers: [Vec<u8>; 2],
}

impl Judge {
    pub fn new(seed: u64) -> Judge {
        Judge {
            seed,
            calls: 0,
            numbers: BTreeMap::new(),
            buffers: [Vec::new(), Vec::new()],
        }
    }

    pub fn calls(&self) -> u64 {
        self.calls
    }

    /// Writes; gives the block where it was accepted.
    pub fn write(&mut self, records: &[u8], room: usize) -> Option<Vec<u8>> {
        let length = records.len() + block::COUNTS;
        self.both(
            "write",
            records,
            room,
            length,
            |out| block::write(records, out),
            |out| proved::block_write(records, out),
        )
    }

    /// Reads; gives the records where the block was accepted.
    pub fn read(&mut self, bytes: &[u8], room: usize) -> Option<Vec<u8>> {
        let length = bytes.len().saturating_sub(block::COUNTS);
        self.both(
            "read",
            bytes,
            room,
            length,
            |out| block::read(bytes, out),
            |out| proved::block_read(bytes, out),
        )
    }

    /// Looks up; gives the output where it was accepted.
    pub fn record(&mut self, bytes: &[u8], place: u32, room: usize) -> Option<Vec<u8>> {
        self.both(
            "record",
            bytes,
            room,
            room,
            |out| block::record(bytes, place, out),
            |out| proved::block_record(bytes, place, out),
        )
    }

    fn both(
        &mut self,
        call: &'static str,
        given: &[u8],
        room: usize,
        length: usize,
        second: impl Fn(&mut [u8]) -> Result<usize, Refusal>,
        proved: impl Fn(&mut [u8]) -> u32,
    ) -> Option<Vec<u8>> {
        for buffer in &mut self.buffers {
            buffer.clear();
            buffer.extend((0..GUARD + room + GUARD).map(|at| (at * 37 + 11) as u8));
        }
        let [one, other] = &mut self.buffers;
        let expected = second(&mut one[GUARD..][..room]).map_or_else(Refusal::number, |_| 0);
        let number = proved(&mut other[GUARD..][..room]);
        self.calls += 1;
        *self.numbers.entry((call, number)).or_default() += 1;
        if number != expected || one != other {
            let at = one.iter().zip(&*other).position(|(a, b)| a != b);
            println!(
                "{call} differs (seed {}, call {}): {expected} expected, {number} given; output of {room} bytes, first byte that differs {:?}; given {}",
                self.seed,
                self.calls,
                at.map(|at| at as isize - GUARD as isize),
                hex(given),
            );
            process::exit(1);
        }
        (number == 0).then(|| other[GUARD..][..length].to_vec())
    }

    /// What was reached; every number that a call can answer must have been.
    pub fn report(&self) {
        println!("{} calls, no difference", self.calls);
        for (&(call, number), count) in &self.numbers {
            println!("  {call:6} {number:2}  {count}");
        }
        let wanted = [
            ("write", &[0, 1, 5, 12, 21][..]),
            ("read", &[0, 1, 5, 21]),
            ("record", &[0, 1, 5, 21]),
        ];
        for (call, numbers) in wanted {
            for &number in numbers {
                if !self.numbers.contains_key(&(call, number)) {
                    println!("{call}: number {number} was not reached");
                    process::exit(1);
                }
            }
        }
    }
}
