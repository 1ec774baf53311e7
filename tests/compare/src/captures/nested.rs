//! Captures in which a message begins inside another, so that items are decided from held bytes alone.

use crate::damage::{damage, fields, remake_checksums};
use crate::slices::{self, filled};
use crate::Random;
use independent::examples::EXAMPLE_3;
use independent::message::{header, Message, ACK, DATA_NSQ, DATA_SEQ, NAK, SYN};

/// SYN, a header or an ACK written over a message at every place, checksums left or made right, then a message.
pub fn written_over(random: &mut Random) -> Vec<Vec<u8>> {
    let below = Message::new(DATA_SEQ, random.byte(), &random.bytes(30)).bytes();
    let mut captures = Vec::new();
    for upper in [&SYN[..], &header(DATA_NSQ, 9, 0), &EXAMPLE_3] {
        for place in 0..=below.len() - upper.len() {
            let mut bytes = below.clone();
            bytes[place..place + upper.len()].copy_from_slice(upper);
            captures.push([&bytes[..], &slices::message(random)].concat());
            remake_checksums(&mut bytes);
            captures.push([&bytes[..], &slices::message(random)].concat());
        }
    }
    captures
}

/// Damaged messages with messages in their payloads, and a message behind them.
pub fn inside(random: &mut Random) -> Vec<Vec<u8>> {
    let mut captures = Vec::new();
    for _ in 0..80 {
        captures.push([layers(random), slices::message(random)].concat());
        captures.push([full(random), slices::message(random)].concat());
        captures.push([full(random), full(random), layers(random)].concat());
    }
    captures
}

/// A message inside a damaged one, that inside another, and so on as far as LEN allows.
pub fn layers(random: &mut Random) -> Vec<u8> {
    let mut bytes = Message::new(ACK, random.byte(), &[]).bytes();
    while bytes.len() <= 240 {
        let (before, behind) = (random.up_to(8), random.up_to(8));
        let payload = [random.bytes(before), bytes, random.bytes(behind)].concat();
        bytes = wrong(DATA_SEQ, &payload, random);
    }
    bytes
}

/// A damaged message whose payload of 256 bytes is full of small whole messages, the last of which is cut.
pub fn full(random: &mut Random) -> Vec<u8> {
    let payload = filled(256, random, |random| {
        let (kind, len) = random.one_of(&[(ACK, 0), (NAK, 0), (DATA_SEQ, 1), (DATA_NSQ, 2)]);
        Message::new(kind, random.byte(), &random.bytes(len)).bytes()
    });
    wrong(DATA_NSQ, &payload, random)
}

/// A message with a wrong payload checksum.
fn wrong(kind: u8, payload: &[u8], random: &mut Random) -> Vec<u8> {
    let mut bytes = Message::new(kind, random.byte(), payload).bytes();
    let [.., payload_checksum] = fields(&bytes);
    damage(&mut bytes, payload_checksum, random);
    bytes
}
