//! Blocks of the second implementation alone, against the text of document 02's wish 13.

use second::block::{self, COUNTS, LONGEST_BLOCK, RECORDS};
use second::generate::{self, Size};
use second::random::Random;
use second::record::LONGEST;
use second::samples::{c12, read_of_8};
use second::Refusal;

/// C12 and a read of 8 behind it, as a block: counts, headers, addresses, planes.
#[rustfmt::skip]
const TWO: [u8; 63] = [
    2, 0, 3, 0,
    1, 0, 1, 0, 1, 0, 0, 0, 1, 0, 0, 0, 0, 0, 0, 0,
    1, 0, 0, 0, 2, 0, 0, 0, 1, 0, 0, 0, 1, 1, 0, 0,
    8, 8, 8,
    0, 1, 1, 0, 0, 0, 0, 0, 0, 0, 0, 0, 0, 0, 0, 0, 0, 0, 0, 0, 0, 0, 0, 0,
];

fn two() -> Vec<u8> {
    [c12().encode(), read_of_8().encode()].concat()
}

fn written(records: &[u8]) -> Result<Vec<u8>, Refusal> {
    let mut out = vec![0; records.len() + COUNTS];
    block::write(records, &mut out).map(|length| {
        assert_eq!(length, out.len());
        out
    })
}

fn read(block: &[u8]) -> Result<Vec<u8>, Refusal> {
    let mut out = vec![0; block.len().saturating_sub(COUNTS)];
    block::read(block, &mut out).map(|_| out)
}

#[test]
fn a_block_byte_for_byte() {
    assert_eq!(written(&two()), Ok(TWO.to_vec()));
    assert_eq!(read(&TWO), Ok(two()));
}

#[test]
fn there_and_back() {
    let mut random = Random::new(1);
    for size in [Size::Tiny, Size::Small, Size::Mixed, Size::Large] {
        for _ in 0..50 {
            let count = 1 + random.below(RECORDS);
            let records: Vec<_> = (0..count)
                .map(|_| generate::record(&mut random, size))
                .collect();
            let bytes = generate::archive(&records);
            let block = written(&bytes).unwrap();
            assert_eq!(read(&block), Ok(bytes));
            for (place, record) in records.iter().enumerate() {
                let mut out = [0; LONGEST];
                let length = block::record(&block, place as u32, &mut out).unwrap();
                assert_eq!(out[..length], record.encode());
            }
            assert_eq!(
                block::record(&block, count as u32, &mut [0; LONGEST]),
                Err(Refusal::Block)
            );
        }
    }
}

#[test]
fn the_longest_block() {
    let mut random = Random::new(1);
    let records: Vec<_> = (0..RECORDS)
        .map(|_| generate::record(&mut random, Size::Large))
        .collect();
    let block = written(&generate::archive(&records)).unwrap();
    assert_eq!(block.len(), LONGEST_BLOCK);
    assert_eq!(block.len(), 295_940);
}

#[test]
fn refusals_in_order() {
    let one = c12().encode();
    // no record at all, a 65th before anything else of it
    assert_eq!(written(&[]), Err(Refusal::Block));
    let mut many = one.repeat(RECORDS);
    assert!(written(&many).is_ok());
    many.push(0);
    assert_eq!(written(&many), Err(Refusal::Block));
    // short before record, the first faulty record of all
    assert_eq!(written(&one[..33]), Err(Refusal::Short));
    let mut broken = two();
    broken[14] = 1;
    assert_eq!(written(&broken), Err(Refusal::Record));
    assert_eq!(written(&broken[..33]), Err(Refusal::Short));
    // the buffer before all
    assert_eq!(block::write(&[], &mut [0; 3]), Err(Refusal::Buffer));
    assert_eq!(block::read(&TWO, &mut [0; 58]), Err(Refusal::Buffer));
    assert_eq!(
        block::record(&[], 9, &mut [0; LONGEST - 1]),
        Err(Refusal::Buffer)
    );
    // counts and length
    assert_eq!(read(&[]), Err(Refusal::Block));
    assert_eq!(read(&TWO[..62]), Err(Refusal::Block));
    for at in [0, 1, 2, 3, 4, 6, 20, 22] {
        let mut other = TWO;
        other[at] ^= 1;
        assert_eq!(read(&other), Err(Refusal::Block));
    }
    // a fault in any record, whichever is looked up; a place beyond comes first
    let mut other = TWO;
    other[35] = 1;
    assert_eq!(read(&other), Err(Refusal::Record));
    assert_eq!(
        block::record(&other, 0, &mut [0; LONGEST]),
        Err(Refusal::Record)
    );
    assert_eq!(
        block::record(&other, 2, &mut [0; LONGEST]),
        Err(Refusal::Block)
    );
}

#[test]
fn sizes_above_the_limit_with_agreeing_counts() {
    // one record that claims 257 reads, all there
    let mut block = vec![1, 0, 1, 1, 1, 1, 0, 0, 1, 0, 0, 0, 1, 0, 0, 0, 0, 0, 0, 0];
    block.extend((0..257).map(|i| i as u8));
    block.extend([0; 8 * 257]);
    assert_eq!(read(&block), Err(Refusal::Record));
}
