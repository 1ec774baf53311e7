//! What an ACK and a NAK do to the frame in flight.

use super::Act;
use crate::ids::Seq;
use crate::ledger::answers::{Cause, Word};
use crate::ledger::request::{Request, State};
use crate::ledger::Ledger;

impl Ledger {
    /// "ACK with the SEQ in flight: response wanted, it waits from this reading; otherwise it ends, *acknowledged*.
    /// Any other ACK: *stray*."
    pub(super) fn acknowledged(&mut self, seq: Seq) -> Act {
        let fits = |request: &Request| matches!(request.flight(), Some(flight) if flight.seq == seq);
        let Some(place) = self.live.iter().position(fits) else {
            return Act::word(Word::Stray);
        };
        if self.live[place].wanted {
            self.live[place].state = State::Waiting { since: self.clock };
            return Act::default();
        }
        Act {
            ending: Some(self.end(place, Cause::Acknowledged)),
            ..Act::default()
        }
    }

    /// "NAK: marks the frame in flight; none in flight: *stray*."
    pub(super) fn not_acknowledged(&mut self) -> Act {
        for request in &mut self.live {
            if let State::InFlight(flight) = &mut request.state {
                flight.marked = true;
                return Act::default();
            }
        }
        Act::word(Word::Stray)
    }
}
