//! Document 01's "The ledger": what open, submit, receive and poll must answer, with plain vectors.

use crate::ids::{RequestId, Seq};
use crate::line::Line;
use request::Request;

pub mod answers;
pub mod calls;
pub mod lists;
mod malformed;
mod poll;
mod receive;
pub mod refusals;
pub mod request;
mod submit;
pub mod trace;

#[cfg(test)]
mod bench;
#[cfg(test)]
mod examples;
#[cfg(test)]
mod explorer;
#[cfg(test)]
mod tests;

/// "at most three live requests"
pub const MOST_LIVE: usize = 3;

/// "R from 0 to 255"
const GREATEST_R: u64 = 255;

/// What the ledger holds, and "Beside the above it keeps the held bytes".
#[derive(Clone, Debug, PartialEq, Eq)]
pub struct Ledger {
    /// How many requests can be live.
    pub limit: usize,
    /// "Event IDs are 1 to R"
    pub r: u64,
    /// The last accepted reading, in milliseconds.
    pub clock: u64,
    pub next_seq: Seq,
    pub next_id: RequestId,
    /// "the controller's last SEQ (none at first)"
    pub last_seq: Option<Seq>,
    /// "oldest first"
    pub live: Vec<Request>,
    pub line: Line,
}

impl Ledger {
    /// Refusal 3 "hands back the fresh endpoint for R = 0".
    pub fn open(r: u64) -> (Result<(), u8>, Ledger) {
        if r > GREATEST_R {
            return (Err(refusals::R_OVER_255), Ledger::fresh(0));
        }
        (Ok(()), Ledger::fresh(r))
    }

    /// "A fresh endpoint has clock 0, next request ID R + 1, nothing live and nothing held." The next SEQ "starts 0".
    fn fresh(r: u64) -> Ledger {
        Ledger {
            limit: MOST_LIVE,
            r,
            clock: 0,
            next_seq: Seq(0),
            next_id: first_id(r),
            last_seq: None,
            live: Vec::new(),
            line: Line::default(),
        }
    }

    /// The place of the frame in flight: "At most one is in flight."
    fn in_flight(&self) -> Option<usize> {
        self.live.iter().position(Request::is_in_flight)
    }

    /// "An ended request leaves"; "Every ending names its request ID and cause."
    fn end(&mut self, place: usize, cause: answers::Cause) -> answers::Ending {
        let request_id = self.live.remove(place).id;
        answers::Ending { request_id, cause }
    }
}

/// R + 1, which fits for every R that open accepts.
fn first_id(r: u64) -> RequestId {
    RequestId(u16::try_from(r + 1).expect("R is at most 255"))
}

/// "stands at the front of its buffer; the rest is unchanged"
fn put_in_front(buffer: &mut [u8], bytes: &[u8]) {
    buffer[..bytes.len()].copy_from_slice(bytes);
}
