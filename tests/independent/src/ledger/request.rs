//! A live request: "what each live request was submitted with", its ID and its state.

use crate::command::{Command, Fields};
use crate::ids::{RequestId, Seq};
use crate::message::{Message, DATA_SEQ};

#[derive(Clone, Debug, PartialEq, Eq)]
pub struct Request {
    pub id: RequestId,
    pub fields: Fields,
    pub data: Vec<u8>,
    /// "response wanted or not"
    pub wanted: bool,
    pub state: State,
}

/// "Each is queued, in flight (SEQ, transmissions, last sent, NAK mark) or waiting (since when)."
#[derive(Clone, Copy, Debug, PartialEq, Eq)]
pub enum State {
    Queued,
    InFlight(Flight),
    Waiting { since: u64 },
}

#[derive(Clone, Copy, Debug, PartialEq, Eq)]
pub struct Flight {
    pub seq: Seq,
    pub transmissions: u8,
    pub last_sent: u64,
    pub marked: bool,
}

impl Request {
    pub fn is_queued(&self) -> bool {
        self.state == State::Queued
    }

    pub fn is_in_flight(&self) -> bool {
        self.flight().is_some()
    }

    pub fn flight(&self) -> Option<Flight> {
        match self.state {
            State::InFlight(flight) => Some(flight),
            State::Queued | State::Waiting { .. } => None,
        }
    }

    /// "sent as DATA_SEQ"
    pub fn frame(&self, seq: Seq) -> Vec<u8> {
        let command = Command {
            fields: self.fields,
            request_id: self.id,
            data: &self.data,
        };
        Message::new(DATA_SEQ, seq.0, &command.payload()).bytes()
    }

    /// "A request in flight or waiting that wants a response, with equal RQID, TC, CID, IID, and TID and SID swapped"
    pub fn is_answered_by(&self, command: &Command) -> bool {
        !self.is_queued() && self.wanted && self.id == command.request_id && self.fields.swapped() == command.fields
    }
}
