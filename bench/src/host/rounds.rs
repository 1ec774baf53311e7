//! The calls of `crates/host_probe` on the plain endpoint, each answer counted into a number in the same way.

use super::frames::Fields;
use super::plain::{Plain, Polled, Received, Word, MOST_DATA};

const R: u64 = 38;
const FIELDS: Fields = Fields {
    tc: 3,
    tid: 1,
    sid: 0,
    iid: 1,
    cid: 1,
};
const DATA: &[u8] = b"0123456789abcdef";
/// "ACK, SEQ 0"
const FIRST_ACK: [u8; 10] = [0xAA, 0x55, 0x40, 0x00, 0x00, 0x00, 0x5C, 0xEA, 0xFF, 0xFF];
/// Bytes of a piece.
pub const PIECE: usize = 64;

/// An endpoint with the buffers that its calls lend, and the number so far.
pub struct Rounds<Checksum> {
    endpoint: Plain,
    output: [u8; 266],
    reply: [u8; 10],
    data: [u8; MOST_DATA],
    sum: u64,
    checksum: Checksum,
}

impl<Checksum: Fn(&[u8]) -> u16> Rounds<Checksum> {
    pub fn new(checksum: Checksum) -> Self {
        let mut endpoint = Plain::default();
        assert_eq!(endpoint.open(R), Ok(()));
        Rounds {
            endpoint,
            output: [0; 266],
            reply: [0; 10],
            data: [0; MOST_DATA],
            sum: 0,
            checksum,
        }
    }

    pub fn submits(mut self, rounds: u64, each: u64) -> u64 {
        for _ in 0..rounds {
            self.submit_some(each);
        }
        self.sum
    }

    pub fn sends(mut self, rounds: u64) -> u64 {
        for _ in 0..rounds {
            self.submit_some(1);
            for clock in [0, 1_000, 2_000] {
                self.poll(clock);
            }
        }
        self.sum
    }

    /// One request waits, one is in flight and one queued.
    pub fn quiet_polls(mut self, polls: u64) -> u64 {
        self.submit_some(3);
        self.poll(0);
        self.receive(&FIRST_ACK);
        for _ in 0..=polls {
            self.poll(0);
        }
        self.sum
    }

    /// The number, and how many calls there were.
    pub fn receives(mut self, bytes: &[u8]) -> (u64, u64) {
        let mut calls = 0;
        for mut piece in bytes.chunks_exact(PIECE) {
            loop {
                let received = self.receive(piece);
                calls += 1;
                if received.is_more() {
                    break;
                }
                piece = &piece[received.item.taken..];
            }
        }
        (self.sum, calls)
    }

    fn count(&mut self, answer: u64) {
        self.sum = self.sum.rotate_left(5).wrapping_add(answer);
    }

    fn submit_some(&mut self, count: u64) {
        let opened = self.endpoint.open(R);
        debug_assert_eq!(opened, Ok(()));
        for _ in 0..count {
            match self.endpoint.book.submit(FIELDS, DATA, true, 0) {
                Ok(id) => self.count(id.into()),
                Err(number) => self.count(number.into()),
            }
        }
    }

    fn poll(&mut self, clock: u64) {
        let answer = match self.endpoint.book.poll(&mut self.output, clock, &self.checksum) {
            Err(number) => number.into(),
            Ok(Polled::Sent(length)) => length as u64,
            Ok(Polled::Ended(id)) => id.into(),
            Ok(Polled::Quiet(time)) => time,
            Ok(Polled::NoDeadline) => 0,
        };
        let [seq, low, high] = [5, 32, 33].map(|at| u64::from(self.output[at]));
        self.count(answer ^ (seq ^ low << 8 ^ high << 16) << 32);
    }

    fn receive(&mut self, new: &[u8]) -> Received {
        let answer = self
            .endpoint
            .receive(new, &mut self.reply, &mut self.data, 0, &self.checksum);
        let received = answer.expect("the buffers are long enough");
        let command = match received.word {
            Some(Word::Event(id, length) | Word::Response(id, length) | Word::Unmatched(id, length)) => {
                u64::from(id) ^ (length as u64) << 16
            }
            _ => 0,
        };
        let ended = received.ended.map_or(0, u64::from);
        let seen = u64::from(self.reply[6]) ^ u64::from(self.data[0]) << 8;
        let answer = received.item.taken as u64 ^ (received.replied as u64) << 8 ^ command << 16;
        self.count(answer ^ ended << 44 ^ seen << 48);
        received
    }
}
