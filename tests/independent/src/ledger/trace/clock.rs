//! "The rule for the clock looks at accepted calls that take one."

use crate::ledger::calls::{Call, Outcome};

#[derive(Clone, Debug)]
pub struct ClockRule {
    pub kept: bool,
    before: Option<Before>,
}

/// The accepted call before: its reading and, of a quiet poll, what it named.
#[derive(Clone, Debug)]
struct Before {
    reading: u64,
    quiet: Option<Option<u64>>,
}

impl Default for ClockRule {
    fn default() -> Self {
        ClockRule {
            kept: true,
            before: None,
        }
    }
}

impl ClockRule {
    /// "the last accepted reading"; "A fresh endpoint has clock 0".
    pub fn last_reading(&self) -> u64 {
        self.before.as_ref().map_or(0, |before| before.reading)
    }

    /// An accepted call; all of them take a clock.
    pub fn record(&mut self, call: &Call, outcome: &Outcome) {
        let reading = call.clock();
        // "The first reading is free."
        if let Some(before) = &self.before {
            self.kept &= before.allows(reading);
        }
        self.before = Some(Before {
            reading,
            quiet: outcome.quiet(),
        });
    }
}

impl Before {
    /// "Where the reading of one is later than that of the one before it, the one before was a poll that answered
    /// quiet, and the later reading is at most that poll's reading plus the time it named, if any."
    fn allows(&self, reading: u64) -> bool {
        if reading <= self.reading {
            return true;
        }
        match self.quiet {
            None => false,
            Some(None) => true,
            Some(Some(time)) => u128::from(reading) <= u128::from(self.reading) + u128::from(time),
        }
    }
}
