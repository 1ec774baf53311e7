//! The complete answers of the accepted calls. Submit's is the request ID.

use crate::command::Fields;
use crate::ids::{RequestId, Seq};
use crate::line::Decided;

/// "Receive answers the item .. the word .. the bytes taken, the reply's length and .. the command's fields and data
/// length", and the ending, if any.
#[derive(Clone, Debug, PartialEq, Eq)]
pub struct Received {
    pub item: Item,
    pub word: Option<Word>,
    pub taken: usize,
    pub reply_length: usize,
    pub ending: Option<Ending>,
}

/// "the item of the six rules (a message with TYPE, SEQ and LEN) or *more*"
#[derive(Clone, Copy, Debug, PartialEq, Eq)]
pub enum Item {
    More,
    DamagedHeader,
    Forbidden,
    DamagedPayload,
    Message { kind: u8, seq: Seq, len: usize },
}

impl Item {
    pub fn of(decided: &Option<Decided>) -> Item {
        match decided {
            None => Item::More,
            Some(Decided::DamagedHeader) => Item::DamagedHeader,
            Some(Decided::Forbidden) => Item::Forbidden,
            Some(Decided::DamagedPayload) => Item::DamagedPayload,
            Some(Decided::Message { kind, seq, payload }) => Item::Message {
                kind: *kind,
                seq: Seq(*seq),
                len: payload.len(),
            },
        }
    }
}

/// "the word .. that a message earns", with the command where one is answered.
#[derive(Clone, Copy, Debug, PartialEq, Eq)]
pub enum Word {
    Stray,
    Repeat,
    NotACommand,
    Event(Incoming),
    Response(Incoming),
    Unmatched(Incoming),
}

/// "for an event, a response or *unmatched*, the command's fields and data length"
#[derive(Clone, Copy, Debug, PartialEq, Eq)]
pub struct Incoming {
    pub fields: Fields,
    pub request_id: RequestId,
    pub data_length: usize,
}

/// "Poll answers the sent length or the quiet time", or names an ending.
#[derive(Clone, Copy, Debug, PartialEq, Eq)]
pub enum Polled {
    Ended(Ending),
    Sent(usize),
    /// "the milliseconds to the earliest such deadline, or *no deadline*"
    Quiet(Option<u64>),
}

/// "Every ending names its request ID and cause."
#[derive(Clone, Copy, Debug, PartialEq, Eq)]
pub struct Ending {
    pub request_id: RequestId,
    pub cause: Cause,
}

#[derive(Clone, Copy, Debug, PartialEq, Eq)]
pub enum Cause {
    Acknowledged,
    Response,
    NoResponse,
    NoAcknowledgement,
}
