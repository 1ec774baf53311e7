//! Generated slices for the reader: messages, what becomes of them on the line, and junk.

use crate::damage::{damage, fields, remake_checksums};
use crate::Random;
use independent::examples::MESSAGES;
use independent::message::{header, Message, ACK, DATA_NSQ, DATA_SEQ, NAK, SYN};

/// The four TYPE values of document 01.
pub const KINDS: [u8; 4] = [NAK, ACK, DATA_SEQ, DATA_NSQ];

/// A few pieces behind one another. One slice in six is cut off somewhere, one in six ends in a lone AA.
pub fn mixture(random: &mut Random) -> Vec<u8> {
    let mut bytes = Vec::new();
    for _ in 0..=random.up_to(2) {
        bytes.extend(piece(random));
    }
    match random.up_to(5) {
        0 => bytes.truncate(random.up_to(bytes.len())),
        1 => bytes.push(SYN[0]),
        _ => {}
    }
    bytes
}

fn piece(random: &mut Random) -> Vec<u8> {
    match random.up_to(9) {
        0 | 1 => message(random),
        2 => damaged(random, false),
        3 => damaged(random, true),
        4 => syn_inside(random),
        5 => any_header(random),
        6 => [vec![SYN[0]; random.up_to(5)], message(random)].concat(),
        7 => pairs(random, 24),
        8 => junk(random, 40),
        _ => random.bytes(24),
    }
}

/// Examples 3 to 6 of document 01, and data messages of the least, a middle and the greatest LEN.
pub fn samples(random: &mut Random) -> Vec<Vec<u8>> {
    let mut samples: Vec<Vec<u8>> = MESSAGES.iter().map(|(_, bytes)| bytes.to_vec()).collect();
    for (kind, len) in [(DATA_SEQ, 1), (DATA_NSQ, 30), (DATA_SEQ, 255), (DATA_NSQ, 256)] {
        samples.push(Message::new(kind, random.byte(), &random.bytes(len)).bytes());
    }
    samples
}

/// So many bytes of these pieces behind one another; the last one is cut.
pub fn filled(length: usize, random: &mut Random, piece: impl Fn(&mut Random) -> Vec<u8>) -> Vec<u8> {
    let mut bytes = Vec::new();
    while bytes.len() < length {
        bytes.extend(piece(random));
    }
    bytes.truncate(length);
    bytes
}

/// An allowed message. Most payloads are short.
pub fn message(random: &mut Random) -> Vec<u8> {
    let kind = random.one_of(&KINDS);
    let len = match (kind, random.up_to(9)) {
        (NAK | ACK, _) => 0,
        (_, 0) => random.one_of(&[1, 2, 255, 256]),
        (_, 1) => 1 + random.up_to(255),
        _ => 1 + random.up_to(23),
    };
    let payload = random.bytes(len);
    Message::new(kind, random.byte(), &payload).bytes()
}

/// A message with one field damaged; the checksums are then made right, or left.
pub fn damaged(random: &mut Random, remade: bool) -> Vec<u8> {
    let mut bytes = message(random);
    let field = random.up_to(6);
    let range = fields(&bytes)[field].clone();
    damage(&mut bytes, range, random);
    if remade {
        remake_checksums(&mut bytes);
    }
    bytes
}

/// A message in whose payload stands SYN or a whole ACK, every other time with a wrong checksum behind it.
pub fn syn_inside(random: &mut Random) -> Vec<u8> {
    let mut inner = Message::new(ACK, random.byte(), &[]).bytes();
    inner.truncate(random.one_of(&[2, 10]));
    let (before, after) = (random.up_to(9), random.up_to(9));
    let payload = [random.bytes(before), inner, random.bytes(after)].concat();
    let mut bytes = Message::new(DATA_SEQ, random.byte(), &payload).bytes();
    if random.up_to(1) == 0 {
        let [.., payload_checksum] = fields(&bytes);
        damage(&mut bytes, payload_checksum, random);
    }
    bytes
}

/// A header of any TYPE, LEN and SEQ with the right checksum, and a few bytes behind it.
pub fn any_header(random: &mut Random) -> Vec<u8> {
    let kind = if random.up_to(1) == 0 {
        random.one_of(&KINDS)
    } else {
        random.byte()
    };
    let len = random.number() as u16 >> random.up_to(15);
    let behind = random.up_to(12);
    [header(kind, len, random.byte()), random.bytes(behind)].concat()
}

/// Junk of AA, 55 and a few bytes that stand in headers, so that SYN is frequent.
pub fn pairs(random: &mut Random, most: usize) -> Vec<u8> {
    let length = random.up_to(most);
    (0..length)
        .map(|_| random.one_of(&[0xAA, 0xAA, 0x55, 0x55, 0x00, 0x40, 0x80, 0xFF]))
        .collect()
}

/// Junk without SYN; it may end in AA.
pub fn junk(random: &mut Random, most: usize) -> Vec<u8> {
    let length = random.up_to(most);
    let mut bytes = random.bytes(length);
    for at in 1..length {
        if bytes[at - 1..=at] == SYN {
            bytes[at] = SYN[0];
        }
    }
    bytes
}
