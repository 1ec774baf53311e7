//! The reader on every TYPE and every LEN, with checksums that are right, so that rules 3 and 4 are reached.

use compare::reader::Tally;
use compare::{slices, Random};
use independent::message::{header, Message};

#[test]
fn every_type_with_every_len_to_300() {
    let mut random = Random::seeded("reader, every TYPE and LEN");
    let mut tally = Tally::default();
    for kind in 0..=255 {
        for len in 0..=300 {
            let payload = random.bytes(len);
            tally.slice(&Message::new(kind, random.byte(), &payload).bytes());
        }
    }
    // ACK and NAK with LEN 0, both data types with LEN 1 to 256
    tally.report("every TYPE with every LEN 0 to 300", [0, 0, 256 * 301 - 514, 0, 514]);
}

#[test]
fn every_len() {
    let mut random = Random::seeded("reader, every LEN");
    let mut tally = Tally::default();
    for kind in slices::KINDS {
        for len in 0..=u16::MAX {
            let behind = random.up_to(12);
            tally.slice(&[header(kind, len, random.byte()), random.bytes(behind)].concat());
        }
    }
    tally.report(
        "each of the four TYPEs with every LEN 0 to 65,535",
        [400, 0, 4 * 65_536 - 514, 0, 0],
    );
}

#[test]
fn forbidden_with_all_its_bytes() {
    let mut random = Random::seeded("reader, forbidden LEN with all its bytes");
    let mut tally = Tally::default();
    for kind in slices::KINDS {
        for least in [257, 511, 512, 65_279, 65_534, 65_535] {
            let len = least.max(random.up_to(65_535));
            for len in [least, len] {
                tally.slice(&Message::new(kind, random.byte(), &random.bytes(len)).bytes());
            }
        }
    }
    tally.report("forbidden LEN with all its bytes", [0, 0, 48, 0, 0]);
}
