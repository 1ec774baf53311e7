//! Some hundreds of comparisons with everything that the C functions touch in heap memory of exactly the length handed in,
//! so that valgrind sees a step past either end. `tests/run` runs this under valgrind.

use binding::line::{receive_into, Numbers, Received, MORE, MOST_HELD};
use binding::Reading;
use compare::held::{held_and_new, CONTENTS};
use compare::reader::Tally;
use compare::rows::{one_twice, RESERVED};
use compare::slices::{damaged, junk, message, mixture, KINDS};
use compare::writer::places;
use compare::{audit, line, writer, Random};
use independent::checksum::checksum;
use independent::examples::MESSAGES;
use independent::line::Line;
use independent::message::Message;

fn main() {
    let mut random = Random::seeded("exact heap buffers");
    read_slices(&mut random);
    write_messages(&mut random);
    receive_pieces(&mut random);
    audit_rows(&mut random);
    checksum_bytes(&mut random);
}

fn read_slices(random: &mut Random) {
    let mut tally = Tally::default();
    for (_, bytes) in MESSAGES {
        for end in 0..=bytes.len() {
            read(&mut tally, &bytes[..end]);
        }
    }
    for _ in 0..150 {
        read(&mut tally, &mixture(random));
        read(&mut tally, &damaged(random, false));
        read(&mut tally, &damaged(random, true));
        read(&mut tally, &[junk(random, 40), message(random)].concat());
    }
    tally.report("exact heap buffers", [50, 20, 20, 10, 150]);
}

/// Both readers, the C one on its own copy of the bytes and with each of its six numbers in a place of its own.
fn read(tally: &mut Tally, bytes: &[u8]) {
    let bytes: Box<[u8]> = bytes.into();
    let before = bytes.clone();
    let [mut kind, mut seq] = [(); 2].map(|()| Box::new(0xEE_u8));
    let [mut payload, mut len, mut dropped, mut removed] = [(); 4].map(|()| Box::new(usize::MAX));
    let answer = binding::read_into(
        &bytes,
        &mut kind,
        &mut seq,
        &mut payload,
        &mut len,
        &mut dropped,
        &mut removed,
    );
    let found = Reading {
        answer,
        kind: *kind,
        seq: *seq,
        payload: *payload,
        len: *len,
        dropped: *dropped,
        removed: *removed,
    };
    tally.agree(&bytes, found);
    assert!(bytes == before, "the reader changed the bytes");
}

fn write_messages(random: &mut Random) {
    let mut tally = writer::Tally::default();
    for kind in KINDS {
        for len in [0, 1, 8, 256, 257] {
            let payload = random.bytes(len);
            let message = Message::new(kind, 0, &payload);
            for size in [0, 9, 9 + len, 10 + len, 20 + len] {
                let buffer = random.bytes(size);
                for place in places(size, len, random) {
                    tally.write(&buffer, place, message);
                }
            }
        }
    }
    tally.report("exact heap buffers", [72, 400, 800]);
}

fn receive_pieces(random: &mut Random) {
    let mut tally = line::Tally::default();
    for content in CONTENTS {
        // 0 and 265 are among them
        for count in (0..=MOST_HELD).step_by(5) {
            let (held, new) = held_and_new(count, content, random);
            receive(&mut tally, &mut Line { held }, &new);
        }
    }
    tally.report("exact heap buffers", [500, 1_000, 50, 200, 500], 1_000, 100);
    for length in [0, 1, 264, 265, 266, 300] {
        let array = random.bytes(length);
        for count in [0, 1, length, 265, 266, usize::MAX] {
            if length != MOST_HELD || count > MOST_HELD {
                line::refused(&array, count, &message(random));
            }
        }
    }
}

/// Both lines until *more*, the C one with its own array and new bytes for each call.
fn receive(tally: &mut line::Tally, line: &mut Line, mut piece: &[u8]) {
    loop {
        let mut array: Box<[u8]> = [0xEE; MOST_HELD].into();
        array[..line.held.len()].copy_from_slice(&line.held);
        let new: Box<[u8]> = piece.into();
        let (found, now_held) = receive_once(&mut array, line.held.len(), &new);
        assert!(*new == *piece, "the function changed the new bytes");
        tally.agree(line, piece, found, &array[..now_held]);
        if found.answer == MORE {
            return;
        }
        piece = &piece[found.taken..];
    }
}

/// One call with each of its five numbers in a place of its own.
fn receive_once(array: &mut [u8], count: usize, new: &[u8]) -> (Received, usize) {
    let [mut kind, mut seq] = [(); 2].map(|()| Box::new(0xEE_u8));
    let [mut len, mut taken, mut now_held] = [(); 3].map(|()| Box::new(usize::MAX));
    let numbers = Numbers {
        kind: &mut kind,
        seq: &mut seq,
        len: &mut len,
        taken: &mut taken,
        now_held: &mut now_held,
    };
    let answer = receive_into(array, count, new, numbers);
    let received = Received {
        answer,
        kind: *kind,
        seq: *seq,
        len: *len,
        taken: *taken,
    };
    (received, *now_held)
}

fn audit_rows(random: &mut Random) {
    let mut tally = audit::Tally::default();
    for length in 0..=60 {
        // of all IDs, and of so few that some are equal
        for greatest in [65_535, 600] {
            let ids: Vec<u16> = (0..length).map(|_| random.up_to(greatest) as u16).collect();
            for r in RESERVED {
                tally.row(&ids, r);
            }
        }
    }
    for r in [0, 38, 255] {
        tally.row(&one_twice(r, random), r.into());
    }
    tally.report("exact heap buffers", [200, 0, 500, 30]);
}

fn checksum_bytes(random: &mut Random) {
    const LONGEST: usize = 300;
    for length in 0..=LONGEST {
        let bytes = random.bytes(length).into_boxed_slice();
        assert_eq!(binding::checksum(&bytes), checksum(&bytes), "checksum of {bytes:02x?}");
    }
    println!("compared: checksum, exact heap buffers of length 0 to {LONGEST} agree");
}
