//! The writer, as a function from the buffer before to the buffer after.

use crate::message::{is_allowed, Message, NAK};

/// "forbidden header, or NAK with SEQ not 0"
pub const FORBIDDEN_HEADER: u8 = 7;
/// "place plus 10 + LEN past the buffer's end (after 7)"
pub const NO_ROOM: u8 = 6;

/// The buffer with the message at its place, or the number of the refusal.
pub fn written(buffer: &[u8], place: usize, message: Message) -> Result<Vec<u8>, u8> {
    let len = message.payload.len();
    if !is_allowed(message.kind, len) || message.kind == NAK && message.seq != 0 {
        return Err(FORBIDDEN_HEADER);
    }
    // 128 bits hold every such sum of whole numbers
    if place as u128 + 10 + len as u128 > buffer.len() as u128 {
        return Err(NO_ROOM);
    }
    let (before, rest) = buffer.split_at(place);
    Ok([before, &message.bytes(), &rest[10 + len..]].concat())
}
