//! The table of refusals: each row, its order, and that nothing changes.

use crate::ledger::bench::{ack, data_seq, payload, Bench, FIELDS};
use crate::ledger::refusals::{BUFFER_UNDER, CLOCK_BELOW, DATA_OVER_248, MALFORMED, THREE_LIVE};
use crate::ledger::Ledger;

/// Three live, a part of a message held, and clock 100.
fn full() -> Ledger {
    let mut bench = Bench::opened(38);
    bench.waiting(50);
    bench.sent(false, 100);
    bench.submit(true, 100);
    bench.receive(&[0xAA, 0x55, 0x80], 100);
    bench.ledger
}

/// A submit with so many data bytes.
fn submit(ledger: &mut Ledger, data: usize, clock: u64) -> Result<(), u8> {
    ledger.submit(FIELDS, &vec![1; data], true, clock).map(|_| ())
}

/// A receive of an event with buffers of these lengths, which stay where it is refused.
fn receive(ledger: &mut Ledger, reply: usize, data: usize, clock: u64) -> Result<(), u8> {
    let (mut lent_reply, mut lent_data) = (vec![7; reply], vec![8; data]);
    let event = data_seq(0, &payload(FIELDS, 1, &[9]));
    let answer = ledger.receive(&event, &mut lent_reply, &mut lent_data, clock);
    if answer.is_err() {
        assert_eq!((lent_reply, lent_data), (vec![7; reply], vec![8; data]));
    }
    answer.map(|_| ())
}

/// A poll with an output of this length, which stays where it is refused.
fn poll(ledger: &mut Ledger, output: usize, clock: u64) -> Result<(), u8> {
    let mut lent = vec![7; output];
    let answer = ledger.poll(&mut lent, clock);
    if answer.is_err() {
        assert_eq!(lent, vec![7; output]);
    }
    answer.map(|_| ())
}

/// The call is refused with this number, and the ledger stays.
fn refused(number: u8, mut ledger: Ledger, call: impl Fn(&mut Ledger) -> Result<(), u8>) {
    let before = ledger.clone();
    assert_eq!(call(&mut ledger), Err(number));
    assert_eq!(ledger, before);
}

#[test]
fn the_numbers() {
    let numbers = [MALFORMED, CLOCK_BELOW, DATA_OVER_248, THREE_LIVE, BUFFER_UNDER];
    assert_eq!(numbers, [1, 2, 4, 5, 6]);
}

#[test]
fn of_submit() {
    let fresh = || Ledger::open(38).1;
    for clock in [0, 50, 99] {
        refused(2, full(), |ledger| submit(ledger, 0, clock));
        // 2 before 4 and 5
        refused(2, full(), |ledger| submit(ledger, 249, clock));
    }
    // 4 before 5
    for data in [249, 250, 1_000, 70_000] {
        refused(4, full(), |ledger| submit(ledger, data, 100));
        refused(4, fresh(), |ledger| submit(ledger, data, 100));
    }
    refused(5, full(), |ledger| submit(ledger, 248, 100));
    refused(5, full(), |ledger| submit(ledger, 0, u64::MAX));
    assert_eq!(submit(&mut fresh(), 248, 0), Ok(()));
}

#[test]
fn of_receive() {
    refused(2, full(), |ledger| receive(ledger, 10, 248, 99));
    refused(2, full(), |ledger| receive(ledger, 0, 0, 99));
    for (reply, data) in [(9, 248), (10, 247), (0, 248), (10, 0), (9, 247), (1_000, 247)] {
        refused(6, full(), |ledger| receive(ledger, reply, data, 100));
        refused(6, full(), |ledger| receive(ledger, reply, data, u64::MAX));
    }
    assert_eq!(receive(&mut full(), 10, 248, 100), Ok(()));
    assert_eq!(receive(&mut full(), 11, 1_000, u64::MAX), Ok(()));
}

#[test]
fn of_poll() {
    refused(2, full(), |ledger| poll(ledger, 266, 99));
    refused(2, full(), |ledger| poll(ledger, 265, 99));
    for output in [0, 10, 265] {
        refused(6, full(), |ledger| poll(ledger, output, 100));
        refused(6, full(), |ledger| poll(ledger, output, 9_999));
    }
    assert_eq!(poll(&mut full(), 266, 100), Ok(()));
    assert_eq!(poll(&mut full(), 1_000, 9_999), Ok(()));
}

#[test]
fn malformed_comes_first() {
    let malformed = || Ledger { r: 256, ..full() };
    refused(1, malformed(), |ledger| submit(ledger, 249, 99));
    refused(1, malformed(), |ledger| submit(ledger, 0, 100));
    refused(1, malformed(), |ledger| receive(ledger, 9, 247, 99));
    refused(1, malformed(), |ledger| receive(ledger, 10, 248, 100));
    refused(1, malformed(), |ledger| poll(ledger, 265, 99));
    refused(1, malformed(), |ledger| poll(ledger, 266, 100));
}

#[test]
fn a_refused_reading_does_not_count() {
    // a refused call "clock included": the readings refused are later than the ones accepted after them
    let mut ledger = full();
    refused(6, ledger.clone(), |ledger| poll(ledger, 265, 5_000));
    assert_eq!(poll(&mut ledger, 265, 5_000), Err(6));
    assert_eq!(submit(&mut ledger, 0, 5_000), Err(5));
    assert_eq!(receive(&mut ledger, 9, 248, 5_000), Err(6));
    assert_eq!(poll(&mut ledger, 266, 100), Ok(()));
    assert_eq!(ledger.clock, 100);
}

#[test]
fn a_refused_receive_takes_nothing() {
    let mut bench = Bench::opened(38);
    bench.sent(false, 0);
    let refused = bench.ledger.receive(&ack(0), &mut [0; 9], &mut [0; 248], 0);
    assert_eq!(refused, Err(BUFFER_UNDER));
    assert!(bench.hear(&ack(0), 0).1.is_some());
}
