//! What a receive's answer says of a message, held against the list: repeats and events, and that an ending comes with
//! the message that causes it.

use super::requests::Request;
use super::{clause, Clause, Trace};
use crate::ids::Seq;
use crate::ledger::answers::{Cause, Item, Received, Word};
use crate::message::{ACK, DATA_NSQ, DATA_SEQ, NAK};

impl Trace {
    /// The word is one that this message can earn.
    pub(super) fn word(&mut self, received: &Received) -> Clause {
        let Received { item, word, .. } = received;
        let Item::Message { kind, seq, .. } = *item else {
            return clause(word.is_none(), || format!("a word for no message: {received:?}"));
        };
        let possible = match kind {
            ACK | NAK => matches!(word, None | Some(Word::Stray)),
            // "If its SEQ equals the controller's last SEQ, item *repeat* .. otherwise that becomes the last SEQ"
            DATA_SEQ if self.last_seq.replace(seq) == Some(seq) => *word == Some(Word::Repeat),
            DATA_SEQ | DATA_NSQ => self.is_of_a_command(word),
            _ => false,
        };
        clause(possible, || format!("another word: {received:?}"))?;
        let responded = matches!(received.ending, Some(ending) if ending.cause == Cause::Response);
        let says_so = matches!(word, Some(Word::Response(_)));
        clause(responded == says_so, || format!("word and ending: {received:?}"))
    }

    /// "RQID 1 to R: *event*", and no other; *not a command* has no RQID.
    fn is_of_a_command(&self, word: &Option<Word>) -> bool {
        let reserved = |id: u16| id != 0 && u64::from(id) <= self.r;
        match word {
            Some(Word::NotACommand) => true,
            Some(Word::Event(incoming)) => reserved(incoming.request_id.0),
            Some(Word::Response(incoming) | Word::Unmatched(incoming)) => !reserved(incoming.request_id.0),
            None | Some(Word::Stray | Word::Repeat) => false,
        }
    }
}

/// The request can end so in a receive: by "ACK with the SEQ in flight", or by a response to it.
pub fn ends(received: &Received, cause: Cause, request: &Request) -> bool {
    match (cause, received.item, received.word) {
        (Cause::Acknowledged, Item::Message { kind: ACK, seq, .. }, None) => request.seq() == Some(seq),
        (Cause::Response, _, Some(Word::Response(incoming))) => {
            incoming.request_id == request.id && incoming.fields == request.fields.swapped()
        }
        _ => false,
    }
}

impl Request {
    /// SEQ of its frames.
    fn seq(&self) -> Option<Seq> {
        self.frames.first().map(|frame| Seq(frame[5]))
    }
}
