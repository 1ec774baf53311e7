//! The readings of a list's calls.

use crate::ledger::calls::{Call, Outcome};
use crate::random::Random;

/// How a list's clock goes.
#[derive(Clone, Copy, Debug, PartialEq, Eq)]
enum Pace {
    /// By document 01's rule, and as late as it allows.
    Latest,
    /// By the rule, anywhere in what it allows.
    Anywhere,
    /// It stands still, jumps or goes back.
    Any,
}

#[derive(Clone, Debug)]
pub struct Clocks {
    pace: Pace,
    /// The last accepted reading, none at first, and how much later the next one may be by the rule.
    last: Option<u64>,
    leave: Leave,
}

#[derive(Clone, Copy, Debug, PartialEq, Eq)]
enum Leave {
    UpTo(u64),
    AnyLater,
}

impl Clocks {
    pub fn new(by_the_rule: bool, late: bool, random: &mut Random) -> Self {
        let pace = match (by_the_rule, late) {
            (true, true) => Pace::Latest,
            (true, false) => random.one_of(&[Pace::Latest, Pace::Anywhere]),
            (false, _) => Pace::Any,
        };
        Clocks {
            pace,
            last: None,
            leave: Leave::AnyLater,
        }
    }

    pub fn observe(&mut self, call: &Call, outcome: &Outcome) {
        if outcome.refusal().is_some() {
            return;
        }
        self.last = Some(call.clock());
        self.leave = match outcome.quiet() {
            Some(Some(time)) => Leave::UpTo(time),
            Some(None) => Leave::AnyLater,
            None => Leave::UpTo(0),
        };
    }

    /// The next call's reading; a few are below the last accepted one, which is `clock`, and so refused.
    pub fn reading(&self, clock: u64, random: &mut Random) -> u64 {
        if clock > 0 && random.one_in(40) {
            return below(clock, random);
        }
        if self.last.is_none() {
            return first(random);
        }
        let later = match (self.pace, self.leave) {
            (Pace::Any, _) => jump(random),
            (_, Leave::AnyLater) => leap(random),
            (Pace::Latest, Leave::UpTo(most)) => most,
            (Pace::Anywhere, Leave::UpTo(most)) => within(most, random),
        };
        clock.saturating_add(later)
    }
}

fn below(clock: u64, random: &mut Random) -> u64 {
    match random.up_to(3) {
        0 => 0,
        1 => clock - 1,
        2 => clock.saturating_sub(3_000),
        _ => random.number() % clock,
    }
}

/// "The first reading is free."
fn first(random: &mut Random) -> u64 {
    match random.up_to(9) {
        0..=5 => random.up_to(5_000) as u64,
        6 => 0,
        7 => random.number() >> 1,
        8 => u64::MAX - random.up_to(20_000) as u64,
        _ => random.one_of(&[1 << 32, u64::MAX - 12_000, u64::MAX - 3_000]),
    }
}

/// After *no deadline*: any time later.
fn leap(random: &mut Random) -> u64 {
    match random.up_to(39) {
        0 => random.number(),
        1 => u64::MAX,
        2..=9 => random.up_to(20_000) as u64,
        10..=19 => random.one_of(&[1, 999, 1_000, 3_000, 12_000]),
        _ => 0,
    }
}

/// After a quiet time: anywhere in it.
fn within(most: u64, random: &mut Random) -> u64 {
    match random.up_to(5) {
        0 => 0,
        1 => most.saturating_sub(1),
        2 => random.number() % (most + 1),
        _ => most,
    }
}

/// By no rule.
fn jump(random: &mut Random) -> u64 {
    match random.up_to(59) {
        0 => random.number() >> 1,
        1 => random.one_of(&[1 << 16, 1 << 32, 1 << 32, u64::MAX]),
        2..=12 => random.one_of(&[999, 1_000, 1_001, 2_999, 3_000, 3_001]),
        13..=16 => random.up_to(5_000) as u64,
        17..=24 => random.up_to(3) as u64,
        _ => 0,
    }
}
