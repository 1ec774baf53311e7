//! "Malformed means one of", a line each and in that order.

use super::request::{Request, State};
use super::{first_id, Ledger, GREATEST_R};
use crate::command::MOST_DATA;
use crate::ids::RequestId;
use crate::line::MOST_HELD;

impl Ledger {
    pub fn malformed(&self) -> bool {
        let any = |fault: fn(&Request) -> bool| self.live.iter().any(fault);
        // "R over 255; more than three live"
        self.r > GREATEST_R
            || self.live.len() > self.limit
            // "a live or next ID outside R + 1 to 65535; two equal live IDs"
            || self.live_ids().any(|id| self.is_outside(id))
            || self.is_outside(self.next_id)
            || self.two_equal_ids()
            // "two in flight; transmissions not 1 to 3"
            || self.live.iter().filter(|request| request.is_in_flight()).count() > 1
            || any(|request| matches!(request.flight(), Some(flight) if !(1..=3).contains(&flight.transmissions)))
            // "data over 248; a waiting request that wants no response"
            || any(|request| request.data.len() > MOST_DATA)
            || any(|request| matches!(request.state, State::Waiting { .. }) && !request.wanted)
            // "a time later than the clock; more than 265 held"
            || self.live.iter().any(|request| time(request) > self.clock)
            || self.line.held.len() > MOST_HELD
    }

    fn live_ids(&self) -> impl Iterator<Item = RequestId> + '_ {
        self.live.iter().map(|request| request.id)
    }

    /// No ID is above 65535, by its type.
    fn is_outside(&self, id: RequestId) -> bool {
        id < first_id(self.r)
    }

    fn two_equal_ids(&self) -> bool {
        self.live_ids()
            .enumerate()
            .any(|(place, id)| self.live_ids().take(place).any(|earlier| earlier == id))
    }
}

/// When a request was last sent or since when it waits; 0, which is never later, where it is queued.
fn time(request: &Request) -> u64 {
    match request.state {
        State::Queued => 0,
        State::InFlight(flight) => flight.last_sent,
        State::Waiting { since } => since,
    }
}
