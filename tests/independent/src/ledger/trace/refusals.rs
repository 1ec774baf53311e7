//! Document 01's table of refusals, read off the list: "clock below the last accepted reading" and the number of live
//! requests are those of the calls so far.

use super::Trace;
use crate::ledger::calls::Call;

impl Trace {
    /// The numbers of all rows that hold for this call, in the table's order. The first of them refuses it.
    pub fn refusals(&self, call: &Call) -> Vec<u8> {
        let clock_below = call.clock() < self.rule.last_reading();
        let live = self.requests.live().count();
        let rows = match call {
            Call::Submit { data, .. } => [(2, clock_below), (4, data.len() > 248), (5, live == self.limit)],
            Call::Receive { reply, data, .. } => {
                let short = reply.len() < 10 || data.len() < 248;
                [(2, clock_below), (6, short), (6, false)]
            }
            Call::Poll { output, .. } => [(2, clock_below), (6, output.len() < 266), (6, false)],
        };
        rows.iter()
            .filter(|(_, holds)| *holds)
            .map(|(number, _)| *number)
            .collect()
    }
}
