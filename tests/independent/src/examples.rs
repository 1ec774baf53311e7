//! Document 01's bench examples of messages: 3 to 6 as bytes, 7 to 9 and the lister's capture made of them.

use crate::message::{Message, ACK, DATA_SEQ, NAK};

/// 3. "ACK, SEQ 0"
pub const EXAMPLE_3: [u8; 10] = [0xAA, 0x55, 0x40, 0x00, 0x00, 0x00, 0x5C, 0xEA, 0xFF, 0xFF];
/// 4. "ACK, SEQ 255"
pub const EXAMPLE_4: [u8; 10] = [0xAA, 0x55, 0x40, 0x00, 0x00, 0xFF, 0xAC, 0xF4, 0xFF, 0xFF];
/// 5. "NAK"
pub const EXAMPLE_5: [u8; 10] = [0xAA, 0x55, 0x04, 0x00, 0x00, 0x00, 0x31, 0x4E, 0xFF, 0xFF];
/// 6. The first command of an endpoint with R = 38.
pub const EXAMPLE_6: [u8; 18] = [
    0xAA, 0x55, 0x80, 0x08, 0x00, 0x00, 0x59, 0xF0, // SYN, DATA_SEQ, LEN 8, SEQ 0, checksum
    0x80, 0x03, 0x01, 0x00, 0x01, 0x27, 0x00, 0x01, // 0x80, TC, TID, SID, IID, RQID, CID
    0x5E, 0x34,
];
/// The payload of example 6.
pub const COMMAND: [u8; 8] = [0x80, 0x03, 0x01, 0x00, 0x01, 0x27, 0x00, 0x01];

/// Examples 3 to 6: the message, and its bytes.
pub const MESSAGES: [(Message, &[u8]); 4] = [
    (Message::new(ACK, 0, &[]), &EXAMPLE_3),
    (Message::new(ACK, 255, &[]), &EXAMPLE_4),
    (Message::new(NAK, 0, &[]), &EXAMPLE_5),
    (Message::new(DATA_SEQ, 0, &COMMAND), &EXAMPLE_6),
];

/// 7. "00 AA then case 3"
pub fn example_7() -> Vec<u8> {
    [&[0x00, 0xAA], EXAMPLE_3.as_slice()].concat()
}

/// 8. "First 9 bytes of case 3"
pub fn example_8() -> Vec<u8> {
    EXAMPLE_3[..9].to_vec()
}

/// 9. "Case 3 with last byte FE"
pub fn example_9() -> Vec<u8> {
    [&EXAMPLE_3[..9], &[0xFE]].concat()
}

/// "case 3 followed by the first 17 bytes of case 6", the capture whose listing document 01 gives.
pub fn example_of_the_lister() -> Vec<u8> {
    [&EXAMPLE_3[..], &EXAMPLE_6[..17]].concat()
}

#[cfg(test)]
mod tests {
    use super::*;
    use crate::reader::{read, Item};
    use crate::writer::{written, FORBIDDEN_HEADER, NO_ROOM};

    /// The item, the bytes dropped before it and the bytes removed with it.
    fn found(bytes: &[u8]) -> (Item<'_>, usize, usize) {
        let reading = read(bytes);
        (reading.item, reading.dropped, reading.removed)
    }

    #[test]
    fn examples_3_to_6_written_and_read() {
        for (message, bytes) in MESSAGES {
            assert_eq!(message.bytes(), bytes);
            assert_eq!(found(bytes), (Item::Message(message), 0, bytes.len()));
        }
    }

    #[test]
    fn examples_7_to_9_read() {
        // "one ACK, 12 taken"; "9 held"; "damaged payload .. 8 held"
        assert_eq!(found(&example_7()), (Item::Message(MESSAGES[0].0), 2, 10));
        assert_eq!(found(&example_8()), (Item::Undecided, 0, 0));
        assert_eq!(found(&example_9()), (Item::DamagedPayload, 0, 2));
    }

    #[test]
    fn a_lone_aa_at_the_end_is_kept() {
        assert_eq!(found(&[]), (Item::Undecided, 0, 0));
        assert_eq!(found(&[0xAA]), (Item::Undecided, 0, 0));
        assert_eq!(found(&[0x55, 0xAA, 0xAA]), (Item::Undecided, 2, 0));
        assert_eq!(found(&[0xAA, 0xAA, 0x00]), (Item::Undecided, 3, 0));
    }

    #[test]
    fn written_in_the_middle_and_refused() {
        let (ack, nak) = (MESSAGES[0].0, Message::new(NAK, 1, &[]));
        let after = [&[7; 3], EXAMPLE_3.as_slice(), &[7; 2]].concat();
        assert_eq!(written(&[7; 15], 3, ack), Ok(after));
        assert_eq!(written(&[7; 15], 6, ack), Err(NO_ROOM));
        assert_eq!(written(&[7; 15], usize::MAX, ack), Err(NO_ROOM));
        assert_eq!(written(&[7; 15], usize::MAX, nak), Err(FORBIDDEN_HEADER));
    }
}
