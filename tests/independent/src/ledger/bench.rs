//! What the tests of the ledger share: calls with buffers of their least length and two bytes, and messages.

use super::answers::{Cause, Ending, Item, Polled, Received, Word};
use super::Ledger;
use crate::command::{Command, Fields};
use crate::ids::{RequestId, Seq};
use crate::message::{Message, ACK, DATA_NSQ, DATA_SEQ, NAK};

/// What the lent buffers are full of before a call.
pub const FILL: u8 = 7;

/// Five different fields.
pub const FIELDS: Fields = Fields {
    tc: 3,
    tid: 1,
    sid: 2,
    iid: 4,
    cid: 5,
};

/// A ledger, and the lent buffers as the last call left them.
#[derive(Clone, Debug)]
pub struct Bench {
    pub ledger: Ledger,
    pub reply: [u8; 12],
    pub data: [u8; 250],
    pub output: [u8; 268],
}

impl Bench {
    pub fn opened(r: u64) -> Bench {
        let (opened, ledger) = Ledger::open(r);
        assert_eq!(opened, Ok(()));
        Bench {
            ledger,
            reply: [FILL; 12],
            data: [FILL; 250],
            output: [FILL; 268],
        }
    }

    /// A request with these fields and no data.
    pub fn submit(&mut self, wanted: bool, clock: u64) -> RequestId {
        self.ledger.submit(FIELDS, &[], wanted, clock).unwrap()
    }

    pub fn poll(&mut self, clock: u64) -> Polled {
        self.output = [FILL; 268];
        self.ledger.poll(&mut self.output, clock).unwrap()
    }

    /// A poll that sends: the frame. Behind it nothing has changed.
    pub fn frame(&mut self, clock: u64) -> Vec<u8> {
        let Polled::Sent(length) = self.poll(clock) else {
            panic!("nothing was sent: {:?}", self.ledger);
        };
        assert!(self.output[length..].iter().all(|&byte| byte == FILL));
        self.output[..length].to_vec()
    }

    pub fn receive(&mut self, new: &[u8], clock: u64) -> Received {
        (self.reply, self.data) = ([FILL; 12], [FILL; 250]);
        self.ledger
            .receive(new, &mut self.reply, &mut self.data, clock)
            .unwrap()
    }

    /// A receive that takes one whole message: the word it earns and the ending.
    pub fn hear(&mut self, message: &[u8], clock: u64) -> (Option<Word>, Option<Ending>) {
        let received = self.receive(message, clock);
        assert!(matches!(received.item, Item::Message { .. }), "{received:?}");
        assert_eq!(received.taken, message.len());
        (received.word, received.ending)
    }

    /// A request that was sent at this reading, with its SEQ.
    pub fn sent(&mut self, wanted: bool, clock: u64) -> (RequestId, Seq) {
        let (id, seq) = (self.submit(wanted, clock), self.ledger.next_seq);
        self.frame(clock);
        (id, seq)
    }

    /// A request that was sent and acknowledged at this reading, and waits.
    pub fn waiting(&mut self, clock: u64) -> RequestId {
        let (id, Seq(seq)) = self.sent(true, clock);
        assert_eq!(self.hear(&ack(seq), clock), (None, None));
        id
    }
}

/// The ending with this cause, as an answer has it.
pub fn ending(request_id: RequestId, cause: Cause) -> Ending {
    Ending { request_id, cause }
}

pub fn ack(seq: u8) -> Vec<u8> {
    Message::new(ACK, seq, &[]).bytes()
}

pub fn nak() -> Vec<u8> {
    Message::new(NAK, 0, &[]).bytes()
}

pub fn data_seq(seq: u8, payload: &[u8]) -> Vec<u8> {
    Message::new(DATA_SEQ, seq, payload).bytes()
}

pub fn data_nsq(seq: u8, payload: &[u8]) -> Vec<u8> {
    Message::new(DATA_NSQ, seq, payload).bytes()
}

pub fn payload(fields: Fields, id: u16, data: &[u8]) -> Vec<u8> {
    Command {
        fields,
        request_id: RequestId(id),
        data,
    }
    .payload()
}
