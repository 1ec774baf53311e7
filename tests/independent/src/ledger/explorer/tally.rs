//! What the lists met, and how often.

use crate::ids::RequestId;
use crate::ledger::answers::{Cause, Ending, Item, Polled, Received, Word};
use crate::ledger::calls::Outcome;
use crate::ledger::trace::Trace;
use crate::ledger::Ledger;
use crate::message::{ACK, DATA_SEQ, NAK};
use std::collections::BTreeMap;

const THREE_BUSY: &str = "poll: three busy in a row at one reading";
const FOUR_POLLS: &str = "rule: requests with four polls in a row at T + 12000 or later";
const ENDED_WITH_MORE: &str = "cuts: lists that ended with more";
const ITEM_HELD: &str = "cuts: lists with an item in the held bytes";

/// All that has to be met at least once. Refusal 1 can't be: no list makes a ledger malformed.
const WANTED: [&str; 49] = [
    ITEM_HELD,
    ENDED_WITH_MORE,
    "cuts: lists without a receive",
    "open: accepted",
    "open: refusal 3",
    "submit: accepted",
    "submit: refusal 2",
    "submit: refusal 4",
    "submit: refusal 5",
    "receive: more",
    "receive: damaged header",
    "receive: forbidden",
    "receive: damaged payload",
    "receive: ACK",
    "receive: NAK",
    "receive: DATA_SEQ",
    "receive: DATA_NSQ",
    "receive: an item from 0 new bytes",
    "receive: refusal 2",
    "receive: refusal 6",
    "word: none",
    "word: stray",
    "word: repeat",
    "word: not a command",
    "word: event",
    "word: response",
    "word: unmatched",
    "ending: acknowledged",
    "ending: response, in flight",
    "ending: response, waiting",
    "ending: no response",
    "ending: no acknowledgement",
    "poll: sent, transmission 1",
    "poll: sent, transmission 2",
    "poll: sent, transmission 3",
    "poll: quiet with a time",
    "poll: quiet, no deadline",
    "poll: refusal 2",
    "poll: refusal 6",
    THREE_BUSY,
    "refusals: 2 before 4",
    "refusals: 2 before 5",
    "refusals: 2 before 6",
    "refusals: 4 before 5",
    "rule: lists that kept it",
    "rule: lists that did not",
    "rule: requests with a quiet poll at T + 12000 or later",
    FOUR_POLLS,
    "rule: lists with an ending exactly at T + 12000",
];

/// What is met only where the next ID was set near 65535.
pub const LAST_IDS: [&str; 2] = ["submit: an ID after 65535", "submit: live IDs passed over"];

#[derive(Default)]
pub struct Tally {
    counts: BTreeMap<String, u64>,
    longest: Option<u64>,
}

impl Tally {
    fn count(&mut self, what: &str, times: u64) {
        match self.counts.get_mut(what) {
            Some(count) => *count += times,
            None => drop(self.counts.insert(String::from(what), times)),
        }
    }

    fn times(&self, what: &str) -> u64 {
        self.counts.get(what).copied().unwrap_or(0)
    }

    pub fn met(&self, what: &str) -> bool {
        self.times(what) > 0
    }

    pub fn opened(&mut self, opened: Result<(), u8>) {
        match opened {
            Ok(()) => self.count("open: accepted", 1),
            Err(number) => self.count(&format!("open: refusal {number}"), 1),
        }
    }

    /// The numbers that hold for a call, where it is more than one.
    pub fn refusals(&mut self, numbers: &[u8]) {
        for pair in numbers.windows(2) {
            self.count(&format!("refusals: {} before {}", pair[0], pair[1]), 1);
        }
    }

    /// A call, with the ledger before it and the list after it.
    pub fn call(&mut self, before: &Ledger, outcome: &Outcome, trace: &Trace) {
        match outcome {
            Outcome::Submit(Ok(id)) => self.submitted(*id, before),
            Outcome::Submit(Err(number)) => self.count(&format!("submit: refusal {number}"), 1),
            Outcome::Receive { answer, .. } => match answer {
                Ok(received) => self.received(received),
                Err(number) => self.count(&format!("receive: refusal {number}"), 1),
            },
            Outcome::Poll { answer, .. } => match answer {
                Ok(polled) => self.polled(polled, trace),
                Err(number) => self.count(&format!("poll: refusal {number}"), 1),
            },
        }
        if let Some(ending) = outcome.ending() {
            self.count(cause(ending, before), 1);
        }
    }

    fn submitted(&mut self, id: RequestId, before: &Ledger) {
        self.count("submit: accepted", 1);
        if id != before.next_id {
            self.count(LAST_IDS[1], 1);
        }
        let newest = before.live.last();
        if newest.is_some_and(|newest| newest.id == RequestId::LAST) {
            self.count(LAST_IDS[0], 1);
        }
    }

    fn received(&mut self, received: &Received) {
        if received.item != Item::More && received.taken == 0 {
            self.count("receive: an item from 0 new bytes", 1);
        }
        self.count(item(received.item), 1);
        if let Item::Message { .. } = received.item {
            self.count(word(received.word), 1);
        }
    }

    fn polled(&mut self, polled: &Polled, trace: &Trace) {
        match polled {
            Polled::Ended(_) => {}
            Polled::Sent(_) => self.count(&format!("poll: sent, transmission {}", trace.transmissions()), 1),
            Polled::Quiet(Some(_)) => self.count("poll: quiet with a time", 1),
            Polled::Quiet(None) => self.count("poll: quiet, no deadline", 1),
        }
    }

    /// A whole list, and how many items its held bytes still decide.
    pub fn list(&mut self, trace: &Trace, still: usize) {
        let kept = u64::from(trace.keeps_the_clock_rule());
        self.count("rule: lists that kept it", kept);
        self.count("rule: lists that did not", 1 - kept);
        let overdue = "rule: requests with a quiet poll at T + 12000 or later";
        self.count(overdue, trace.overdue as u64);
        let exact = u64::from(trace.longest == Some(12_000));
        self.count("rule: lists with an ending exactly at T + 12000", exact);
        self.longest = self.longest.max(trace.longest);
        self.count(THREE_BUSY, trace.busy_rows as u64);
        self.count(FOUR_POLLS, trace.polled_out as u64);
        self.count(ITEM_HELD, u64::from(still > 0));
        match trace.cuts.last {
            None => self.count("cuts: lists without a receive", 1),
            Some(Item::More) => self.count(ENDED_WITH_MORE, 1),
            Some(_) => {}
        }
    }

    /// What the line of a build's statement says beside the lists.
    fn told(&self) -> String {
        let [busy, polled, more, held] =
            [THREE_BUSY, FOUR_POLLS, ENDED_WITH_MORE, ITEM_HELD].map(|what| self.times(what));
        format!(
            "{busy} times three busy polls in a row, {polled} requests with four polls in a row at T + 12000 or later, \
             {more} lists ended with more, {held} with an item in the held bytes"
        )
    }

    /// Prints the counts in one piece, and asks that each of them was met.
    pub fn report(&self, purpose: &str, lists: u64) {
        let counts = self.counts.iter().map(|(what, count)| format!("    {what}: {count}"));
        let counts = counts.collect::<Vec<_>>().join("\n");
        let longest = self.longest.expect("a request has ended under the rule");
        println!(
            "compared: {purpose}: {lists} lists keep every clause: {}\n{counts}\n    rule: longest time from acceptance to ending, in ms: {longest}",
            self.told()
        );
        for what in WANTED {
            assert!(self.met(what), "never met: {what}");
        }
        for what in self.counts.keys().map(|what| &what[..]) {
            let known = WANTED.contains(&what) || LAST_IDS.contains(&what);
            assert!(known, "not expected: {what}");
        }
    }
}

fn item(item: Item) -> &'static str {
    match item {
        Item::More => "receive: more",
        Item::DamagedHeader => "receive: damaged header",
        Item::Forbidden => "receive: forbidden",
        Item::DamagedPayload => "receive: damaged payload",
        Item::Message { kind: ACK, .. } => "receive: ACK",
        Item::Message { kind: NAK, .. } => "receive: NAK",
        Item::Message { kind: DATA_SEQ, .. } => "receive: DATA_SEQ",
        Item::Message { .. } => "receive: DATA_NSQ",
    }
}

fn word(word: Option<Word>) -> &'static str {
    match word {
        None => "word: none",
        Some(Word::Stray) => "word: stray",
        Some(Word::Repeat) => "word: repeat",
        Some(Word::NotACommand) => "word: not a command",
        Some(Word::Event(_)) => "word: event",
        Some(Word::Response(_)) => "word: response",
        Some(Word::Unmatched(_)) => "word: unmatched",
    }
}

/// The cause, and of a response whether the request's frame was still in flight.
fn cause(ending: Ending, before: &Ledger) -> &'static str {
    let mut flying = before.live.iter().filter(|request| request.is_in_flight());
    match ending.cause {
        Cause::Acknowledged => "ending: acknowledged",
        Cause::Response if flying.any(|request| request.id == ending.request_id) => "ending: response, in flight",
        Cause::Response => "ending: response, waiting",
        Cause::NoResponse => "ending: no response",
        Cause::NoAcknowledgement => "ending: no acknowledgement",
    }
}
