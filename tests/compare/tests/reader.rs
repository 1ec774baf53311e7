//! The reader that C programs call: document 01's examples, and generated slices beside the independent reader.

use binding::{Reading, DAMAGED_PAYLOAD, UNDECIDED};
use compare::reader::{whole, Tally};
use compare::{slices, Random};
use independent::examples::{example_7, example_8, example_9, MESSAGES};
use independent::message::SYN;

/// Bytes of the longest junk.
const LONGEST: usize = 100_000;

#[test]
fn examples_3_to_9() {
    for (message, bytes) in MESSAGES {
        assert_eq!(binding::read(bytes), whole(message, 0));
    }
    let (ack, none) = (MESSAGES[0].0, Reading::default());
    assert_eq!(binding::read(&example_7()), whole(ack, 2));
    assert_eq!(binding::read(&example_8()), none);
    let damaged = Reading {
        answer: DAMAGED_PAYLOAD,
        removed: 2,
        ..none
    };
    assert_eq!(binding::read(&example_9()), damaged);
}

#[test]
fn generated_slices() {
    const SLICES: usize = 500_000;
    let mut random = Random::seeded("reader, generated slices");
    let (mut first, mut later) = (Tally::default(), Tally::default());
    for _ in 0..SLICES {
        let bytes = slices::mixture(&mut random);
        let found = first.slice(&bytes);
        if found.answer != UNDECIDED {
            later.items(&bytes[found.dropped + found.removed..]);
        }
    }
    first.report("generated slices", [10_000; 5]);
    later.report("what is left behind each item", [10_000; 5]);
}

#[test]
fn every_string_of_aa_55_and_00() {
    let ack = MESSAGES[0].1;
    let mut tally = Tally::default();
    for length in 0..=8 {
        for number in 0..3_usize.pow(length) {
            let digit = |place| number / 3_usize.pow(place) % 3;
            let string: Vec<u8> = (0..length).map(|place| [SYN[0], SYN[1], 0x00][digit(place)]).collect();
            tally.items(&string);
            tally.items(&[&string, ack].concat());
            tally.items(&[ack, &string].concat());
        }
    }
    tally.report(
        "every string of AA, 55 and 00 up to length 8, alone, before and behind an ACK",
        [20_000, 3_000, 0, 0, 15_000],
    );
}

#[test]
fn long_junk() {
    let mut random = Random::seeded("reader, long junk");
    let mut tally = Tally::default();
    for _ in 0..50 {
        let run = vec![SYN[0]; random.up_to(LONGEST)];
        for junk in [slices::junk(&mut random, LONGEST), run, vec![random.byte(); LONGEST]] {
            tally.items(&junk);
            tally.items(&[junk, slices::message(&mut random)].concat());
        }
    }
    tally.report(
        "junk up to 100,000 bytes without SYN, alone and before a message",
        [300, 0, 0, 0, 150],
    );
}

#[test]
fn long_junk_rich_in_syn() {
    let mut random = Random::seeded("reader, long junk rich in SYN");
    let mut tally = Tally::default();
    for _ in 0..10 {
        tally.items(&slices::pairs(&mut random, LONGEST));
    }
    tally.report("junk up to 100,000 bytes rich in SYN", [10, 5_000, 0, 0, 0]);
}
