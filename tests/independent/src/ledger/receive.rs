//! "**Receive** replies and acts by item".

use super::answers::{Ending, Item, Received, Word};
use super::refusals::BUFFER_UNDER;
use super::{put_in_front, Ledger};
use crate::command::MOST_DATA;
use crate::ids::Seq;
use crate::line::{self, Decided};
use crate::message::{Message, ACK, DATA_NSQ, DATA_SEQ, NAK};

mod commands;
mod control;

/// "reply buffer under 10": the length of an ACK or a NAK.
const REPLY: usize = 10;

/// What an item leads to; nothing by default.
#[derive(Default)]
struct Act {
    word: Option<Word>,
    reply: Vec<u8>,
    data: Vec<u8>,
    ending: Option<Ending>,
}

impl Act {
    fn word(word: Word) -> Act {
        Act {
            word: Some(word),
            ..Act::default()
        }
    }
}

impl Ledger {
    pub fn receive(&mut self, new: &[u8], reply: &mut [u8], data: &mut [u8], clock: u64) -> Result<Received, u8> {
        self.refused(clock)?;
        if reply.len() < REPLY || data.len() < MOST_DATA {
            return Err(BUFFER_UNDER);
        }
        self.clock = clock;
        let line::Received { item, taken } = self.line.receive(new);
        let act = self.act(&item);
        put_in_front(reply, &act.reply);
        put_in_front(data, &act.data);
        Ok(Received {
            item: Item::of(&item),
            word: act.word,
            taken,
            reply_length: act.reply.len(),
            ending: act.ending,
        })
    }

    fn act(&mut self, item: &Option<Decided>) -> Act {
        match item {
            // "Damaged header or payload: reply NAK, whatever TYPE the header shows"
            Some(Decided::DamagedHeader | Decided::DamagedPayload) => Act {
                reply: Message::new(NAK, 0, &[]).bytes(),
                ..Act::default()
            },
            // "Forbidden: no reply."
            Some(Decided::Forbidden) | None => Act::default(),
            Some(Decided::Message { kind, seq, payload }) => match *kind {
                ACK => self.acknowledged(Seq(*seq)),
                NAK => self.not_acknowledged(),
                DATA_SEQ => self.sequenced(Seq(*seq), payload),
                // "DATA_NSQ: no reply, no comparison."
                DATA_NSQ => self.commanded(payload),
                _ => unreachable!("a message has one of the four TYPEs"),
            },
        }
    }

    /// "DATA_SEQ: reply ACK with its SEQ. If its SEQ equals the controller's last SEQ, item *repeat* and nothing more;
    /// otherwise that becomes the last SEQ."
    fn sequenced(&mut self, seq: Seq, payload: &[u8]) -> Act {
        let act = if self.last_seq == Some(seq) {
            Act::word(Word::Repeat)
        } else {
            self.last_seq = Some(seq);
            self.commanded(payload)
        };
        Act {
            reply: Message::new(ACK, seq.0, &[]).bytes(),
            ..act
        }
    }
}
