//! The reader on messages that were damaged in one place or cut off.

use compare::damage::{damage, fields, remake_checksums};
use compare::reader::Tally;
use compare::slices::samples;
use compare::{slices, Random};
use independent::examples::MESSAGES;
use independent::message::{Message, ACK, DATA_NSQ};

#[test]
fn each_field() {
    let mut random = Random::seeded("reader, each field damaged");
    for remade in [false, true] {
        let mut tally = Tally::default();
        for _ in 0..300 {
            for sample in samples(&mut random) {
                for field in fields(&sample) {
                    let mut bytes = sample.clone();
                    damage(&mut bytes, field, &mut random);
                    if remade {
                        remake_checksums(&mut bytes);
                    }
                    // the message behind it shows where the search goes on
                    tally.items(&[bytes, slices::message(&mut random)].concat());
                }
            }
        }
        if remade {
            tally.report(
                "each field damaged, checksums made right",
                [15_000, 0, 2_000, 100, 15_000],
            );
        } else {
            tally.report("each field damaged", [15_000, 8_000, 0, 2_000, 15_000]);
        }
    }
}

#[test]
fn each_bit() {
    let mut random = Random::seeded("reader, each bit flipped");
    let mut tally = Tally::default();
    for sample in samples(&mut random) {
        for bit in 0..sample.len() * 8 {
            let mut bytes = sample.clone();
            bytes[bit / 8] ^= 1 << (bit % 8);
            tally.items(&bytes);
            remake_checksums(&mut bytes);
            tally.items(&bytes);
        }
    }
    tally.report(
        "each bit flipped, checksums left and made right",
        [5_000, 200, 100, 3_000, 3_000],
    );
}

#[test]
fn cut_at_every_place() {
    let mut random = Random::seeded("reader, cut at every place");
    let mut tally = Tally::default();
    for _ in 0..10 {
        for sample in samples(&mut random) {
            for before in [&[][..], &[0xAA], &[0xAA, 0xAA], &[0x55, 0xAA, 0x00]] {
                let bytes = [before, &sample].concat();
                for end in 0..=bytes.len() {
                    tally.items(&bytes[..end]);
                }
            }
        }
    }
    tally.report("cut at every place", [20_000, 0, 0, 0, 320]);
}

#[test]
fn every_part_of_three_messages() {
    let mut tally = Tally::default();
    let (ack, command) = (MESSAGES[0].1, MESSAGES[3].1);
    let nested = Message::new(DATA_NSQ, 7, ack).bytes();
    let mut damaged = nested.clone();
    damaged[19] ^= 1;
    for middle in [command, &nested, &damaged] {
        let bytes = [ack, middle, command].concat();
        for start in 0..bytes.len() {
            for end in start..=bytes.len() {
                tally.items(&bytes[start..end]);
            }
        }
    }
    tally.report(
        "every part of three messages behind one another",
        [3_000, 0, 0, 100, 1_000],
    );
}

#[test]
fn syn_inside_the_payload() {
    let mut random = Random::seeded("reader, SYN inside payloads");
    let mut tally = Tally::default();
    for _ in 0..5_000 {
        let follower = Message::new(ACK, random.byte(), &[]).bytes();
        tally.items(&[slices::syn_inside(&mut random), follower].concat());
    }
    tally.report("SYN inside payloads", [5_000, 1_000, 0, 2_000, 7_500]);
}
