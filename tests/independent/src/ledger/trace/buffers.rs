//! "the whole contents of every lent buffer afterwards", as far as call and outcome say: what the answer puts at the
//! front, and behind it all as it was.

use super::{clause, Clause};
use crate::ledger::answers::{Item, Polled, Received, Word};
use crate::ledger::calls::{Call, Outcome};
use crate::message::{Message, ACK, DATA_SEQ, NAK};

pub fn after(call: &Call, outcome: &Outcome) -> Clause {
    match (call, outcome) {
        (Call::Submit { .. }, Outcome::Submit(_)) => Ok(()),
        (Call::Receive { reply, data, .. }, Outcome::Receive { answer, .. }) => {
            received(reply, data, answer.as_ref().ok(), outcome)
        }
        (Call::Poll { output, .. }, Outcome::Poll { answer, output: after }) => {
            let length = match answer {
                Ok(Polled::Sent(length)) => *length,
                _ => 0,
            };
            same_behind("output", length, output, after)
        }
        _ => Err(String::from("the outcome of another call")),
    }
}

/// `answer` is none where the call was refused: "buffers unchanged".
fn received(reply: &[u8], data: &[u8], answer: Option<&Received>, outcome: &Outcome) -> Clause {
    let Outcome::Receive {
        reply: reply_after,
        data: data_after,
        ..
    } = outcome
    else {
        unreachable!("asked for a receive alone");
    };
    let wanted = answer.map_or(Vec::new(), |received| replied(received.item));
    let length = answer.map_or(0, |received| received.reply_length);
    clause(length == wanted.len(), || format!("a reply of {length}"))?;
    clause(reply_after.starts_with(&wanted), || {
        format!("the reply {reply_after:?}")
    })?;
    same_behind("reply", length, reply, reply_after)?;
    same_behind("data", answer.map_or(0, data_length), data, data_after)
}

/// "reply NAK", "reply ACK with its SEQ", or nothing.
fn replied(item: Item) -> Vec<u8> {
    match item {
        Item::DamagedHeader | Item::DamagedPayload => Message::new(NAK, 0, &[]).bytes(),
        Item::Message {
            kind: DATA_SEQ, seq, ..
        } => Message::new(ACK, seq.0, &[]).bytes(),
        Item::More | Item::Forbidden | Item::Message { .. } => Vec::new(),
    }
}

/// "Events and responses put their data at the front of the lent data buffer; no other item touches it."
fn data_length(received: &Received) -> usize {
    match received.word {
        Some(Word::Event(incoming) | Word::Response(incoming)) => incoming.data_length,
        _ => 0,
    }
}

fn same_behind(what: &str, length: usize, before: &[u8], after: &[u8]) -> Clause {
    let same = length <= before.len() && before.len() == after.len() && before[length..] == after[length..];
    clause(same, || format!("{what} changed behind its first {length} bytes"))
}
