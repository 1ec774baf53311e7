//! "A request is an accepted submit." Which endings and frames belong to it, and what holds of them.

use super::{clause, Clause};
use crate::command::{Command, Fields};
use crate::ids::RequestId;
use crate::ledger::answers::{Cause, Ending};
use crate::ledger::calls::Call;
use crate::message::{Message, DATA_SEQ};
use crate::reader::{read, Item};

#[derive(Clone, Debug)]
pub struct Request {
    pub id: RequestId,
    pub fields: Fields,
    data: Vec<u8>,
    wanted: bool,
    /// The reading at which it was accepted.
    pub accepted: u64,
    /// What polls put in their output, as often as they did.
    pub frames: Vec<Vec<u8>>,
    ending: Option<Cause>,
}

#[derive(Clone, Debug, Default)]
pub struct Requests {
    /// In order of acceptance.
    pub all: Vec<Request>,
    /// How many of them went out at least once.
    started: usize,
    /// How often the frame last put in an output has gone out.
    pub transmissions: usize,
}

impl Requests {
    /// "A request is live until an ending that belongs to it."
    pub fn live(&self) -> impl Iterator<Item = &Request> {
        self.all.iter().filter(|request| request.ending.is_none())
    }

    pub fn accept(&mut self, id: RequestId, call: &Call) {
        let Call::Submit {
            fields,
            data,
            wanted,
            clock,
        } = call
        else {
            unreachable!("only a submit is accepted with an ID");
        };
        self.all.push(Request {
            id,
            fields: *fields,
            data: data.clone(),
            wanted: *wanted,
            accepted: *clock,
            frames: Vec::new(),
            ending: None,
        });
    }

    /// "belongs to the last request before it whose ID it names .., and there always is one"
    fn named(&self, id: RequestId) -> Result<usize, String> {
        let found = self.all.iter().rposition(|request| request.id == id);
        found.ok_or_else(|| format!("{id:?} names no request"))
    }

    /// An ending: it belongs to a request, which is live, and its cause is one that this request can have.
    pub fn ended(&mut self, ending: Ending) -> Result<&Request, String> {
        let place = self.named(ending.request_id)?;
        let request = &mut self.all[place];
        clause(request.ending.is_none(), || format!("a second {ending:?}"))?;
        let (wanted, frames) = (request.wanted, request.frames.len());
        let possible = match ending.cause {
            Cause::Acknowledged => !wanted && frames >= 1,
            Cause::Response | Cause::NoResponse => wanted && frames >= 1,
            Cause::NoAcknowledgement => frames == 3,
        };
        clause(possible, || format!("{ending:?} after {frames} frames of {request:?}"))?;
        request.ending = Some(ending.cause);
        Ok(request)
    }

    /// A polled frame: it belongs to a request ("a frame in its RQID"), which is live; at most three, "all of these are
    /// equal, SEQ included".
    pub fn sent(&mut self, frame: &[u8]) -> Clause {
        let &[_, _, _, _, _, seq, _, _, _, _, _, _, _, low, high, ..] = frame else {
            return Err(format!("too short for a command: {frame:?}"));
        };
        let place = self.named(RequestId(u16::from_le_bytes([low, high])))?;
        let request = &mut self.all[place];
        clause(request.ending.is_none(), || {
            format!("a frame after the ending: {request:?}")
        })?;
        match request.frames.first() {
            Some(first) => clause(first == frame, || format!("another frame: {frame:?}, {request:?}"))?,
            None => {
                request.carried_by(frame)?;
                // "the oldest is sent as DATA_SEQ with the next SEQ"; it "starts 0, after 255 comes 0"
                let in_order = place == self.started && usize::from(seq) == self.started % 256;
                clause(in_order, || format!("SEQ {seq}, not the next of {}", self.started))?;
                self.started += 1;
            }
        }
        request.frames.push(frame.to_vec());
        self.transmissions = request.frames.len();
        clause(self.transmissions <= 3, || format!("a fourth frame: {request:?}"))
    }
}

impl Request {
    /// The frame is one whole DATA_SEQ message, with the command that was submitted.
    fn carried_by(&self, frame: &[u8]) -> Clause {
        let reading = read(frame);
        let Item::Message(Message {
            kind: DATA_SEQ,
            payload,
            ..
        }) = reading.item
        else {
            return Err(format!("not a DATA_SEQ message: {frame:?}"));
        };
        let command = Command {
            fields: self.fields,
            request_id: self.id,
            data: &self.data,
        };
        let whole = (reading.dropped, reading.removed) == (0, frame.len());
        let same = Command::read(payload) == Some(command);
        clause(whole && same, || {
            format!("not the command submitted: {frame:?}, {self:?}")
        })
    }
}
