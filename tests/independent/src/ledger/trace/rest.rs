//! Polling comes to rest: what the newest accepted calls say where they are polls in a row.

use super::{clause, Clause, Trace};
use crate::ledger::calls::{Call, Outcome};

/// The newest accepted calls, as far as they are polls.
#[derive(Clone, Debug, Default)]
pub struct Polls {
    /// Their readings, oldest first.
    readings: Vec<u64>,
    /// How many of the newest came at one reading and were busy: a frame or an ending, and not *quiet*.
    busy: usize,
}

impl Polls {
    fn record(&mut self, call: &Call, outcome: &Outcome) {
        let Call::Poll { clock, .. } = call else {
            *self = Polls::default();
            return;
        };
        let same_reading = self.readings.last() == Some(clock);
        self.busy = match outcome.quiet() {
            Some(_) => 0,
            None if same_reading => self.busy + 1,
            None => 1,
        };
        self.readings.push(*clock);
    }

    /// The reading at which the newest `count` of them began, if so many came.
    fn began(&self, count: usize) -> Option<u64> {
        let first = self.readings.len().checked_sub(count)?;
        Some(self.readings[first])
    }
}

impl Trace {
    /// An accepted call. No more polls in a row are busy at one reading than requests can be live; and under the rule
    /// for the clock a request has ended once one poll more than that came in a row at its bound or later.
    pub(super) fn comes_to_rest(&mut self, call: &Call, outcome: &Outcome) -> Clause {
        self.polls.record(call, outcome);
        if let Some(reading) = self.polls.began(self.limit + 1) {
            let old = self.none_live(reading, "polls in a row from")?;
            self.polled_out = self.polled_out.max(old);
        }
        let busy = self.polls.busy;
        self.busy_rows += usize::from(busy == self.limit);
        clause(busy <= self.limit, || {
            format!("{busy} busy polls in a row at {}", call.clock())
        })
    }
}
