//! Document 01's "Bytes on the line": what a message looks like and which headers are allowed.

use crate::checksum::checksum;
use std::ops::RangeInclusive;

/// "every message opens with the two bytes AA 55 (SYN)"
pub const SYN: [u8; 2] = [0xAA, 0x55];

pub const NAK: u8 = 0x04;
pub const ACK: u8 = 0x40;
pub const DATA_SEQ: u8 = 0x80;
pub const DATA_NSQ: u8 = 0x00;

/// "ACK and NAK have LEN 0. Data frames have LEN 1 to 256 .. Anything else is forbidden."
const ALLOWED: [(u8, RangeInclusive<usize>); 4] =
    [(NAK, 0..=0), (ACK, 0..=0), (DATA_SEQ, 1..=256), (DATA_NSQ, 1..=256)];

pub fn is_allowed(kind: u8, len: usize) -> bool {
    ALLOWED
        .iter()
        .any(|(allowed, lens)| kind == *allowed && lens.contains(&len))
}

/// A message without what the line adds to it. TYPE is `kind`, and LEN is the payload's length.
#[derive(Clone, Copy, Debug, PartialEq, Eq)]
pub struct Message<'a> {
    pub kind: u8,
    pub seq: u8,
    pub payload: &'a [u8],
}

impl<'a> Message<'a> {
    pub const fn new(kind: u8, seq: u8, payload: &'a [u8]) -> Self {
        Message { kind, seq, payload }
    }

    /// The bytes on the line, 10 + LEN, allowed or forbidden; LEN must fit in its two bytes.
    pub fn bytes(&self) -> Vec<u8> {
        let len = u16::try_from(self.payload.len()).expect("LEN has 16 bits");
        [
            &header(self.kind, len, self.seq),
            self.payload,
            &on_the_line(checksum(self.payload)),
        ]
        .concat()
    }
}

/// SYN, "then TYPE (1), LEN (2), SEQ (1); checksum of those four (2)".
pub fn header(kind: u8, len: u16, seq: u8) -> Vec<u8> {
    let [low, high] = on_the_line(len);
    let four = [kind, low, high, seq];
    [SYN, [kind, low], [high, seq], on_the_line(checksum(&four))].concat()
}

/// "All numbers little-endian": the low byte, then the high one.
pub fn on_the_line(number: u16) -> [u8; 2] {
    [(number % 256) as u8, (number / 256) as u8]
}
