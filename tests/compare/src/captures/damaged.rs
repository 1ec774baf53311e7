//! Captures of messages with one field damaged, of forbidden headers, and of SYN inside payloads.

use crate::damage::{damage, fields, remake_checksums};
use crate::slices::{self, samples, KINDS};
use crate::Random;
use independent::message::{Message, ACK};

/// Each sample with each field damaged; the message behind it shows where the search goes on.
pub fn each_field(random: &mut Random, remade: bool) -> Vec<Vec<u8>> {
    let mut captures = Vec::new();
    for sample in (0..5).flat_map(|_| samples(random)).collect::<Vec<_>>() {
        for field in fields(&sample) {
            let mut bytes = sample.clone();
            damage(&mut bytes, field, random);
            if remade {
                remake_checksums(&mut bytes);
            }
            captures.push([bytes, slices::message(random)].concat());
        }
    }
    captures
}

/// Each TYPE with a LEN at and next to either limit, checksums right and all bytes there.
pub fn every_type(random: &mut Random) -> Vec<Vec<u8>> {
    let mut whole = |kind, len| Message::new(kind, random.byte(), &random.bytes(len)).bytes();
    (0..=255)
        .map(|kind| [0, 1, 8, 256, 257].map(|len| whole(kind, len)).concat())
        .collect()
}

/// Each of the four TYPEs with a LEN over 256, checksums right and all bytes there, before an allowed message.
pub fn forbidden_len(random: &mut Random) -> Vec<Vec<u8>> {
    let mut captures = Vec::new();
    for kind in KINDS {
        for len in [257, 258, 511, 512, 513, 4_096, 32_768, 65_535] {
            let whole = Message::new(kind, random.byte(), &random.bytes(len)).bytes();
            captures.push([whole, slices::message(random)].concat());
        }
    }
    captures
}

pub fn syn_inside(random: &mut Random) -> Vec<Vec<u8>> {
    let mut follower = Message::new(ACK, 0, &[]);
    let mut capture = || {
        follower.seq = random.byte();
        [slices::syn_inside(random), follower.bytes()].concat()
    };
    (0..300).map(|_| capture()).collect()
}
