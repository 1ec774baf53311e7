//! The random explorer: very many lists of calls, after each call the clauses of "What demand 3 compares", and at the end
//! of each list that the bytes which its receives took give the same items when they are handed in at once.

use super::calls::{Call, Outcome};
use super::lists::List;
use super::trace::{Clause, Trace};
use super::{Ledger, MOST_LIVE};
use crate::ids::RequestId;
use crate::random::{seed, Random};
use tally::Tally;

mod state;
mod tally;

const CALLS: usize = 50;

/// Where a list's next request ID comes from.
#[derive(Clone, Copy, Debug, PartialEq, Eq)]
enum Ids {
    /// Every list "starts from the endpoint that open hands back", and nothing but calls changes it.
    FromOpen,
    /// Within the first ten calls the next ID is set near 65535, as if very many requests had come and gone. Not
    /// reachable from open in 50 calls.
    SetNearTheLast,
}

#[test]
fn lists_from_open() {
    explore("explorer, lists from open", 100_000, Ids::FromOpen);
}

#[test]
fn lists_with_ids_near_the_last() {
    explore("explorer, lists with IDs near the last", 20_000, Ids::SetNearTheLast);
}

/// Half of the lists keep the rule for the clock. Each comes from the seed and its own number.
fn explore(purpose: &str, lists: u64, ids: Ids) {
    let seed = seed(purpose);
    let mut tally = Tally::default();
    for number in 0..lists {
        let mut random = Random::numbered(seed, number);
        let r = List::any_r(&mut random);
        let (opened, ledger) = Ledger::open(r);
        tally.opened(opened);
        let by_the_rule = number % 2 == 0;
        let mut run = Run {
            trace: Trace::new(if opened.is_ok() { r } else { 0 }, MOST_LIVE),
            ledger,
            done: Vec::new(),
        };
        let ids_set = (random.up_to(9), RequestId(65_535 - random.up_to(3) as u16));
        let set = (ids == Ids::SetNearTheLast).then_some(ids_set);
        if let Err(failure) = run.all(&mut List::new(random, by_the_rule), set, &mut tally) {
            panic!("seed {seed}, list {number}, R {r}, {set:?}: {failure}\n{}", run.told());
        }
        assert!(run.trace.keeps_the_clock_rule() || !by_the_rule, "list {number}");
    }
    tally.report(purpose, lists);
    for what in tally::LAST_IDS {
        assert_eq!(tally.met(what), ids == Ids::SetNearTheLast, "{what}");
    }
}

/// One list as it runs.
struct Run {
    ledger: Ledger,
    trace: Trace,
    done: Vec<(Call, Outcome)>,
}

impl Run {
    /// The whole list, the next ID set at a call where that is asked for, and what is asked at its end.
    fn all(&mut self, list: &mut List, set: Option<(usize, RequestId)>, tally: &mut Tally) -> Clause {
        for at in 0..CALLS {
            if let Some((_, id)) = set.filter(|(place, _)| *place == at) {
                self.ledger.next_id = id;
            }
            self.step(list, tally)?;
        }
        let still = self.trace.cuts.at_once(&self.ledger.line.held)?;
        tally.list(&self.trace, still);
        Ok(())
    }

    fn step(&mut self, list: &mut List, tally: &mut Tally) -> Clause {
        let call = list.next_call(&self.ledger);
        let before = self.ledger.clone();
        let outcome = self.ledger.call(&call);
        list.observe(&call, &outcome);
        tally.refusals(&self.trace.refusals(&call));
        let clauses = self.trace.record(&call, &outcome);
        let clauses = clauses.and_then(|()| state::after(&before, &call, &outcome, &self.ledger, &self.trace));
        tally.call(&before, &outcome, &self.trace);
        self.done.push((call, outcome));
        clauses
    }

    /// The list, a call a line, without the lent buffers.
    fn told(&self) -> String {
        let told = self.done.iter().map(|(call, outcome)| match (call, outcome) {
            (Call::Receive { new, clock, .. }, Outcome::Receive { answer, .. }) => {
                format!("receive {new:02x?} at {clock}: {answer:?}")
            }
            (Call::Poll { clock, .. }, Outcome::Poll { answer, .. }) => format!("poll at {clock}: {answer:?}"),
            _ => format!("{call:?}: {outcome:?}"),
        });
        told.collect::<Vec<_>>().join("\n")
    }
}
