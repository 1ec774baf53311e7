//! Captures in which a header with the right checksum has the beginning of another one in it.

use crate::damage::damage;
use crate::slices::{self, filled};
use crate::Random;
use independent::message::{header, Message, ACK, DATA_NSQ, DATA_SEQ, SYN};

/// One to four headers, each of which ends in the first bytes of what follows, and a message; also with a byte damaged.
pub fn overlapping(random: &mut Random) -> Vec<Vec<u8>> {
    let mut captures = Vec::new();
    for _ in 0..30 {
        let mut bytes = slices::message(random);
        for _ in 0..=random.up_to(3) {
            bytes = overlapped(random.byte(), 1 + random.up_to(2), &bytes);
        }
        captures.push(bytes.clone());
        damage(&mut bytes, 2..5, random);
        captures.push(bytes);
    }
    captures
}

/// A header with SEQ AA and these bytes, which begin with its last one, two or three. Three are its SEQ, and a checksum
/// of 55 and their TYPE. Most such headers are forbidden.
fn overlapped(kind: u8, shared: usize, bytes: &[u8]) -> Vec<u8> {
    let header = |len| header(kind, len, SYN[0]);
    let len = (0..=u16::MAX).find(|&len| header(len).ends_with(&bytes[..shared]));
    let header = header(len.expect("each checksum has a LEN"));
    [&header[..8 - shared], bytes].concat()
}

/// Every allowed header in which SYN begins again, and some at whose end it does, as a message with a damaged payload.
pub fn allowed(random: &mut Random) -> Vec<Vec<u8>> {
    let mut captures = Vec::new();
    for kind in [DATA_SEQ, DATA_NSQ] {
        for len in 1..=256 {
            for seq in 0..=255 {
                captures.extend(begun_again(&header(kind, len, seq), random));
            }
        }
    }
    captures
}

/// The header up to where SYN begins again, if it does, then a message without payload, and more bytes than the header's
/// LEN. It begins at the end of so many headers that one in ten will do.
fn begun_again(header: &[u8], random: &mut Random) -> Option<Vec<u8>> {
    // no allowed header has it before SEQ
    let place = (5..8).find(|&place| header[place..].starts_with(&SYN) || header[place..] == SYN[..1])?;
    if place == 7 && random.up_to(9) > 0 {
        return None;
    }
    let kind = if place == 5 { header[7] } else { ACK };
    let inner = Message::new(kind, random.byte(), &[]).bytes();
    Some([&header[..place], &inner, &random.bytes(256), &slices::message(random)].concat())
}

/// Headers of the greatest LEN behind one another, none with a payload that fits its checksum; the last one may be cut.
pub fn in_a_row(random: &mut Random) -> Vec<Vec<u8>> {
    let mut captures = Vec::new();
    for count in 1..=80 {
        let length = 8 * count - random.up_to(7);
        captures.push(filled(length, random, |random| header(DATA_NSQ, 256, random.byte())));
    }
    captures
}
