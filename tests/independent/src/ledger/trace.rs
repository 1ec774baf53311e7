//! The clauses of document 01's "What demand 3 compares", on the list of calls and outcomes alone. No ledger is asked.

use super::answers::{Cause, Ending};
use super::calls::{Call, Outcome};
use crate::ids::{RequestId, Seq};
use clock::ClockRule;
use cuts::Cuts;
use requests::{Request, Requests};
use rest::Polls;

mod buffers;
mod clock;
mod cuts;
mod refusals;
mod requests;
mod rest;
mod words;

/// Holds, or says which clause fails.
pub type Clause = Result<(), String>;

fn clause(holds: bool, failure: impl FnOnce() -> String) -> Clause {
    if holds {
        Ok(())
    } else {
        Err(failure())
    }
}

/// The list so far.
#[derive(Clone, Debug)]
pub struct Trace {
    /// "what open was given, or .. R = 0 where open refused"
    r: u64,
    /// How many requests can be live.
    limit: usize,
    requests: Requests,
    /// SEQ of the last DATA_SEQ message.
    last_seq: Option<Seq>,
    rule: ClockRule,
    polls: Polls,
    pub cuts: Cuts,
    /// The longest time from acceptance to ending while the rule for the clock was kept.
    pub longest: Option<u64>,
    /// The requests for which a quiet poll came at the bound or later while the rule for the clock was kept.
    pub overdue: usize,
    /// The requests for which one poll more than requests can be live came in a row at the bound or later while the rule
    /// for the clock was kept.
    pub polled_out: usize,
    /// How often as many polls in a row as requests can be live were busy at one reading.
    pub busy_rows: usize,
}

impl Trace {
    pub fn new(r: u64, limit: usize) -> Self {
        Trace {
            r,
            limit,
            requests: Requests::default(),
            last_seq: None,
            rule: ClockRule::default(),
            polls: Polls::default(),
            cuts: Cuts::default(),
            longest: None,
            overdue: 0,
            polled_out: 0,
            busy_rows: 0,
        }
    }

    /// Whether the list so far keeps the rule for the clock.
    pub fn keeps_the_clock_rule(&self) -> bool {
        self.rule.kept
    }

    /// How often the frame last put in an output has gone out.
    pub fn transmissions(&self) -> usize {
        self.requests.transmissions
    }

    /// One call more, and every clause about the list with it.
    pub fn record(&mut self, call: &Call, outcome: &Outcome) -> Clause {
        buffers::after(call, outcome)?;
        let wanted = self.refusals(call).first().copied();
        clause(outcome.refusal() == wanted, || {
            format!("the refusal should be {wanted:?}")
        })?;
        if wanted.is_some() {
            return Ok(());
        }
        self.rule.record(call, outcome);
        self.none_late(call.clock())?;
        if let Outcome::Submit(Ok(id)) = outcome {
            self.requests.accept(*id, call);
        }
        if let (Call::Receive { new, .. }, Some(received)) = (call, outcome.received()) {
            self.cuts.record(new, received)?;
            self.word(received)?;
        }
        if let Some(frame) = outcome.frame() {
            self.requests.sent(frame)?;
        }
        if let Some(ending) = outcome.ending() {
            self.ended(ending, call.clock(), outcome)?;
        }
        self.comes_to_rest(call, outcome)?;
        if let Some(time) = outcome.quiet() {
            self.quiet_time(time)?;
            self.none_forgotten(call.clock())?;
        }
        self.live_ids_are_right()
    }

    /// An ending, which must be one that this call can bring.
    fn ended(&mut self, ending: Ending, reading: u64, outcome: &Outcome) -> Clause {
        let request = self.requests.ended(ending)?;
        let possible = match outcome.received() {
            Some(received) => words::ends(received, ending.cause, request),
            None => matches!(ending.cause, Cause::NoResponse | Cause::NoAcknowledgement),
        };
        clause(possible, || format!("{ending:?} by this call, of {request:?}"))?;
        if self.rule.kept {
            self.longest = self.longest.max(Some(reading - request.accepted));
        }
        Ok(())
    }

    /// The IDs of the requests accepted and not ended, oldest first.
    pub fn live_ids(&self) -> impl Iterator<Item = RequestId> + '_ {
        self.requests.live().map(|request| request.id)
    }

    /// After every call the live requests' IDs are distinct and unreserved ("Unreserved means above R"), and "at most
    /// three" are live.
    fn live_ids_are_right(&self) -> Clause {
        let mut ids: Vec<RequestId> = self.live_ids().collect();
        let count = ids.len();
        clause(count <= self.limit, || format!("{count} are live"))?;
        let reserved = |id: &RequestId| u64::from(id.0) <= self.r;
        clause(!ids.iter().any(reserved), || format!("an ID is reserved: {ids:?}"))?;
        ids.sort();
        ids.dedup();
        clause(ids.len() == count, || format!("two live IDs are equal: {ids:?}"))
    }

    /// *No deadline* where nothing is live, and there alone; else 1 to 3,000 ms.
    fn quiet_time(&self, time: Option<u64>) -> Clause {
        let live = self.live_ids().count();
        let right = match time {
            None => live == 0,
            Some(time) => live > 0 && (1..=3_000).contains(&time),
        };
        clause(right, || format!("quiet for {time:?} with {live} live"))
    }

    /// T + 3,000 L + 3,000 for a request accepted at T: "Sums are of whole numbers and don't wrap."
    fn bound(&self, request: &Request) -> u128 {
        u128::from(request.accepted) + 3_000 * self.limit as u128 + 3_000
    }

    /// Under the rule for the clock: a request has ended once a poll at its bound or later answers quiet.
    fn none_forgotten(&mut self, reading: u64) -> Clause {
        let old = self.none_live(reading, "quiet at")?;
        self.overdue = self.overdue.max(old);
        Ok(())
    }

    /// Under the rule for the clock: none is live whose bound is this reading or before it. Answers how many such
    /// requests there were; without the rule, none.
    fn none_live(&self, reading: u64, when: &str) -> Result<usize, String> {
        if !self.rule.kept {
            return Ok(0);
        }
        let is_old = |request: &&Request| self.bound(request) <= u128::from(reading);
        let found = self.requests.live().find(is_old);
        clause(found.is_none(), || format!("{when} {reading}: {found:?}"))?;
        Ok(self.requests.all.iter().filter(is_old).count())
    }

    /// The same without a quiet poll: under the rule, no accepted call finds a live request later than its bound.
    fn none_late(&self, reading: u64) -> Clause {
        if !self.rule.kept {
            return Ok(());
        }
        let late = |request: &&Request| self.bound(request) < u128::from(reading);
        let found = self.requests.live().find(late);
        clause(found.is_none(), || format!("still live at {reading}: {found:?}"))
    }
}

#[cfg(test)]
mod tests;
