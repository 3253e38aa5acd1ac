//! Wish 14's sentences on small archives, by records and by bytes.

use second::generate::{self, Size};
use second::order::{order, order_of_bytes, Order};
use second::random::Random;
use second::record::Record;
use second::Refusal;

fn write(commit: u32, value: u64) -> Record {
    Record {
        reads: Vec::new(),
        writes: vec![(8, value)],
        commit,
        transaction: commit,
        station: 0,
        kind: 0,
    }
}

fn both(first: &[u8], second: &[u8]) -> Result<Order, Refusal> {
    let answer = order(first, second);
    assert_eq!(answer, order_of_bytes(first, second));
    answer
}

#[test]
fn same_early_and_parted() {
    let one = generate::archive(&[write(1, 5)]);
    let two = generate::archive(&[write(1, 5), write(2, 6)]);
    let other = generate::archive(&[write(1, 5), write(2, 7)]);
    assert_eq!(both(&[], &[]), Ok(Order::Same));
    assert_eq!(both(&two, &two), Ok(Order::Same));
    assert_eq!(both(&[], &one), Ok(Order::FirstEarly));
    assert_eq!(both(&one, &two), Ok(Order::FirstEarly));
    assert_eq!(both(&two, &one), Ok(Order::SecondEarly));
    assert_eq!(both(&two, &other), Ok(Order::Part(2)));
}

#[test]
fn the_first_is_checked_first() {
    let one = generate::archive(&[write(1, 5)]);
    let late = generate::archive(&[write(2, 5)]);
    assert_eq!(both(&one, &one[..5]), Err(Refusal::Short));
    assert_eq!(both(&late, &one[..5]), Err(Refusal::Sequence));
    assert_eq!(both(&one[..5], &late), Err(Refusal::Short));
}

/// Of two parts of one archive the shorter is the early one.
#[test]
fn parts_of_one_archive() {
    let random = &mut Random::new(14);
    let mut line = generate::Line::fresh();
    let records: Vec<Record> = (0..12).map(|_| line.commit(random, Size::Small)).collect();
    for many in 0..=records.len() {
        for more in 0..=records.len() {
            let parts = [many, more].map(|count| generate::archive(&records[..count]));
            let expected = match many.cmp(&more) {
                std::cmp::Ordering::Less => Order::FirstEarly,
                std::cmp::Ordering::Equal => Order::Same,
                std::cmp::Ordering::Greater => Order::SecondEarly,
            };
            assert_eq!(both(&parts[0], &parts[1]), Ok(expected));
        }
    }
}
