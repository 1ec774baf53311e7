//! The reader: document 01's "How bytes become items", its six rules by the letter.

use crate::checksum::checksum;
use crate::message::{is_allowed, on_the_line, Message, SYN};

#[derive(Clone, Copy, Debug, PartialEq, Eq)]
pub enum Item<'a> {
    Undecided,
    DamagedHeader,
    Forbidden,
    DamagedPayload,
    Message(Message<'a>),
}

/// The first item, "with the bytes dropped before it and the bytes removed with it".
#[derive(Clone, Copy, Debug, PartialEq, Eq)]
pub struct Reading<'a> {
    pub item: Item<'a>,
    pub dropped: usize,
    pub removed: usize,
}

pub fn read(bytes: &[u8]) -> Reading<'_> {
    // "Drop bytes until AA 55 stands in front; a lone AA at the end is kept."
    let mut held = bytes;
    while !(held.starts_with(&SYN) || held == &SYN[..1] || held.is_empty()) {
        held = &held[1..];
    }
    let item = decide(held);
    Reading {
        item,
        dropped: bytes.len() - held.len(),
        removed: removed(item),
    }
}

/// Rules 1 to 6, in their order, on bytes with AA 55 in front.
fn decide(held: &[u8]) -> Item<'_> {
    if held.len() < 8 {
        return Item::Undecided;
    }
    let (header, rest) = held.split_at(8);
    if header[6..] != on_the_line(checksum(&header[2..6])) {
        return Item::DamagedHeader;
    }
    let (kind, len, seq) = (
        header[2],
        usize::from(header[3]) + 256 * usize::from(header[4]),
        header[5],
    );
    if !is_allowed(kind, len) {
        return Item::Forbidden;
    }
    if held.len() < 10 + len {
        return Item::Undecided;
    }
    let (payload, rest) = rest.split_at(len);
    if rest[..2] != on_the_line(checksum(payload)) {
        return Item::DamagedPayload;
    }
    Item::Message(Message { kind, seq, payload })
}

/// "After 2, 3 and 5 only the two SYN bytes are removed; after 6 the whole message."
fn removed(item: Item) -> usize {
    match item {
        Item::Undecided => 0,
        Item::DamagedHeader | Item::Forbidden | Item::DamagedPayload => SYN.len(),
        Item::Message(message) => 10 + message.payload.len(),
    }
}
