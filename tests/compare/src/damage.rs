//! What a noisy line does to one field of a message.

use crate::Random;
use independent::checksum::checksum;
use independent::message::on_the_line;
use std::ops::Range;

/// Where the fields stand in a message's bytes: SYN, TYPE, LEN, SEQ, header checksum, payload, payload checksum.
pub fn fields(message: &[u8]) -> [Range<usize>; 7] {
    let end = message.len();
    [0..2, 2..3, 3..5, 5..6, 6..8, 8..end - 2, end - 2..end]
}

/// Changes one byte of the field, every other time in a single bit. An empty payload has nothing to change.
pub fn damage(message: &mut [u8], field: Range<usize>, random: &mut Random) {
    if let Some(last) = field.len().checked_sub(1) {
        let single = 1 << random.up_to(7);
        let change = if random.up_to(1) == 0 {
            single
        } else {
            random.byte().max(1)
        };
        message[field.start + random.up_to(last)] ^= change;
    }
}

/// Makes both checksums right for the bytes as they stand now, so that the damage is reached behind them.
pub fn remake_checksums(message: &mut [u8]) {
    let [.., header_checksum, payload, payload_checksum] = fields(message);
    let header = on_the_line(checksum(&message[2..6]));
    message[header_checksum].copy_from_slice(&header);
    let behind = on_the_line(checksum(&message[payload]));
    message[payload_checksum].copy_from_slice(&behind);
}
