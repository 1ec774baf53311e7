//! The line: document 01's "held bytes followed by the new ones", which become at most one item a call.

use crate::message::Message;
use crate::reader::{read, Item};

/// "At most 265 bytes are held."
pub const MOST_HELD: usize = 265;

/// An item, with its own copy of the payload.
#[derive(Clone, Debug, PartialEq, Eq)]
pub enum Decided {
    DamagedHeader,
    Forbidden,
    DamagedPayload,
    Message { kind: u8, seq: u8, payload: Vec<u8> },
}

/// What a call answers: the item, or none for *more*, and how many of the new bytes it took.
#[derive(Clone, Debug, PartialEq, Eq)]
pub struct Received {
    pub item: Option<Decided>,
    pub taken: usize,
}

/// What stays between the calls: the held bytes, none at first.
#[derive(Clone, Debug, Default, PartialEq, Eq)]
pub struct Line {
    pub held: Vec<u8>,
}

impl Line {
    /// "It takes the smallest number of new bytes, from 0 up, that decides one; if none does, all, and it answers
    /// *more*, holding what is left after dropping."
    pub fn receive(&mut self, new: &[u8]) -> Received {
        let mut taken = 0;
        let mut item = self.decide();
        while item.is_none() && taken < new.len() {
            self.held.push(new[taken]);
            taken += 1;
            item = self.decide();
        }
        assert!(self.held.len() <= MOST_HELD, "{} bytes are held", self.held.len());
        Received { item, taken }
    }

    /// The item that the bytes so far decide, if any. "What follows is held as it is." What the reader drops goes at
    /// once: it drops a byte only where no AA 55 begins, whatever bytes come behind, so it would drop it again.
    fn decide(&mut self) -> Option<Decided> {
        let reading = read(&self.held);
        let (item, gone) = (decided(reading.item), reading.dropped + reading.removed);
        self.held.drain(..gone);
        item
    }

    /// The items found when a "piece is handed in, its untaken rest again, until receive answers *more*".
    pub fn items(&mut self, mut piece: &[u8]) -> Vec<Decided> {
        let mut items = Vec::new();
        loop {
            let received = self.receive(piece);
            let Some(item) = received.item else {
                return items;
            };
            items.push(item);
            piece = &piece[received.taken..];
        }
    }
}

/// The items of all pieces in their order, and the bytes that are held at the end.
pub fn items<'a>(pieces: impl IntoIterator<Item = &'a [u8]>) -> (Vec<Decided>, Vec<u8>) {
    let mut line = Line::default();
    let items = pieces.into_iter().flat_map(|piece| line.items(piece)).collect();
    (items, line.held)
}

fn decided(item: Item) -> Option<Decided> {
    match item {
        Item::Undecided => None,
        Item::DamagedHeader => Some(Decided::DamagedHeader),
        Item::Forbidden => Some(Decided::Forbidden),
        Item::DamagedPayload => Some(Decided::DamagedPayload),
        Item::Message(Message { kind, seq, payload }) => Some(Decided::Message {
            kind,
            seq,
            payload: payload.to_vec(),
        }),
    }
}

#[cfg(test)]
mod tests;
