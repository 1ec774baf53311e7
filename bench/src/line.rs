//! What is timed of a line: pieces of 64 bytes, each "handed in, its untaken rest again, until receive answers *more*".

mod header;
mod plain;

use crate::checksum;
use binding::line::{Line, Received, MORE};
pub use header::Header;
pub use plain::Plain;

/// Bytes of a piece.
pub const PIECE: usize = 64;

/// Hands the answer of each call on to `each`.
fn walk(bytes: &[u8], mut receive: impl FnMut(&[u8]) -> Received, mut each: impl FnMut(Received)) {
    for mut piece in bytes.chunks(PIECE) {
        loop {
            let received = receive(piece);
            each(received);
            if received.answer == MORE {
                break;
            }
            piece = &piece[received.taken..];
        }
    }
}

/// The number of calls, and a sum in which every number of each of them counts by its place in the list.
type Calls = (u64, u64);

fn calls(bytes: &[u8], receive: impl FnMut(&[u8]) -> Received) -> Calls {
    let (mut count, mut sum) = (0, 0_u64);
    walk(bytes, receive, |received| {
        count += 1;
        let Received {
            answer,
            kind,
            seq,
            len,
            taken,
        } = received;
        for number in [answer.into(), kind.into(), seq.into(), len, taken] {
            sum = sum.wrapping_mul(31).wrapping_add(number as u64);
        }
    });
    (count, sum)
}

pub fn library(bytes: &[u8]) -> Calls {
    let mut line = Line::default();
    calls(bytes, |new| line.receive(new))
}

pub fn by_bits(bytes: &[u8]) -> Calls {
    let mut line = Plain::default();
    calls(bytes, |new| line.receive(new, checksum::by_bits))
}

pub fn by_table(bytes: &[u8]) -> Calls {
    let mut line = Plain::default();
    calls(bytes, |new| line.receive(new, checksum::by_table))
}

/// Stops where the library and the plain line, with either checksum, answer differently or hold different bytes.
pub fn must_agree(bytes: &[u8]) {
    let mut library = Line::default();
    let [mut bits, mut table] = [(); 2].map(|()| Plain::default());
    let all_three = |new: &[u8]| {
        let found = library.receive(new);
        let others = [
            bits.receive(new, checksum::by_bits),
            table.receive(new, checksum::by_table),
        ];
        assert_eq!(others, [found; 2], "the answers differ");
        assert_eq!(
            [bits.held(), table.held()],
            [library.held(); 2],
            "the held bytes differ"
        );
        found
    };
    walk(bytes, all_three, |_| ());
}
