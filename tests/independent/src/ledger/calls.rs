//! Calls as data, and what came of them: "Each call brings its own input bytes and buffers, of any length and contents,
//! and any clock."

use super::answers::{Ending, Polled, Received};
use super::Ledger;
use crate::command::Fields;
use crate::ids::RequestId;

/// A call with all that it brings, the lent buffers as they are before it.
#[derive(Clone, Debug, PartialEq, Eq)]
pub enum Call {
    Submit {
        fields: Fields,
        data: Vec<u8>,
        wanted: bool,
        clock: u64,
    },
    Receive {
        new: Vec<u8>,
        reply: Vec<u8>,
        data: Vec<u8>,
        clock: u64,
    },
    Poll {
        output: Vec<u8>,
        clock: u64,
    },
}

/// The answer or the refusal number, and "the whole contents of every lent buffer afterwards".
#[derive(Clone, Debug, PartialEq, Eq)]
pub enum Outcome {
    Submit(Result<RequestId, u8>),
    Receive {
        answer: Result<Received, u8>,
        reply: Vec<u8>,
        data: Vec<u8>,
    },
    Poll {
        answer: Result<Polled, u8>,
        output: Vec<u8>,
    },
}

impl Call {
    pub fn clock(&self) -> u64 {
        match self {
            Call::Submit { clock, .. } | Call::Receive { clock, .. } | Call::Poll { clock, .. } => *clock,
        }
    }
}

impl Outcome {
    /// "Accepted means not refused."
    pub fn refusal(&self) -> Option<u8> {
        match self {
            Outcome::Submit(answer) => answer.err(),
            Outcome::Receive { answer, .. } => answer.as_ref().err().copied(),
            Outcome::Poll { answer, .. } => answer.err(),
        }
    }

    /// The answer of an accepted receive.
    pub fn received(&self) -> Option<&Received> {
        match self {
            Outcome::Receive { answer, .. } => answer.as_ref().ok(),
            _ => None,
        }
    }

    pub fn ending(&self) -> Option<Ending> {
        match self {
            Outcome::Receive {
                answer: Ok(received), ..
            } => received.ending,
            Outcome::Poll {
                answer: Ok(Polled::Ended(ending)),
                ..
            } => Some(*ending),
            _ => None,
        }
    }

    /// The frame that a poll put in its output.
    pub fn frame(&self) -> Option<&[u8]> {
        match self {
            Outcome::Poll {
                answer: Ok(Polled::Sent(length)),
                output,
            } => Some(&output[..*length]),
            _ => None,
        }
    }

    /// What a quiet poll named: the time, or none for *no deadline*.
    pub fn quiet(&self) -> Option<Option<u64>> {
        match self {
            Outcome::Poll {
                answer: Ok(Polled::Quiet(time)),
                ..
            } => Some(*time),
            _ => None,
        }
    }
}

impl Ledger {
    /// Makes the call, with copies of its buffers.
    pub fn call(&mut self, call: &Call) -> Outcome {
        match call {
            Call::Submit {
                fields,
                data,
                wanted,
                clock,
            } => Outcome::Submit(self.submit(*fields, data, *wanted, *clock)),
            Call::Receive {
                new,
                reply,
                data,
                clock,
            } => {
                let (mut reply, mut data) = (reply.clone(), data.clone());
                let answer = self.receive(new, &mut reply, &mut data, *clock);
                Outcome::Receive { answer, reply, data }
            }
            Call::Poll { output, clock } => {
                let mut output = output.clone();
                let answer = self.poll(&mut output, *clock);
                Outcome::Poll { answer, output }
            }
        }
    }
}
