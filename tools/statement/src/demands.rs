//! The sentence for each demand of document 01, with the theorems that say it.

use crate::gate::Gate;
use crate::tree;

pub struct Demand {
    pub sentence: &'static str,
    /// Files under `crates/`, and the theorems in each.
    pub theorems: &'static [(&'static str, &'static [&'static str])],
}

const CLAIMS: &str = "host_claims/proofs/Laws.antt";
const MESSAGES: &str = "message/proofs/Laws.antt";
const LINES: &str = "line/proofs/Laws.antt";
const C_FUNCTIONS: &str = "c_api/proofs/Laws.antt";

pub const DEMANDS: [Demand; 3] = [
    Demand {
        sentence: "Any bytes, clocks and buffers in any order: no call traps, each refusal comes exactly when the table says, and a \
                   refused call changes nothing.",
        theorems: &[(CLAIMS, &["refused_where", "refused_only", "refused_numbers", "open_answers", "never_malformed"])],
    },
    Demand {
        sentence: "Messages are those of the protocol text: what was written is read, what was read is written, and no cut of the bytes \
                   changes an item.",
        theorems: &[
            (MESSAGES, &["write_then_read", "read_then_write"]),
            (C_FUNCTIONS, &["write_then_read", "read_then_write"]),
            (LINES, &["cuts", "cuts_from"]),
            (CLAIMS, &["receives_items", "heard_as_joined", "same_bytes_same_items"]),
        ],
    },
    Demand {
        sentence: "For every list of calls from open on, every answer, reply, ending and lent buffer is the ledger's; requests end at most \
                   once, frames go out at most three times unchanged, and under the clock rule every request ends in time.",
        theorems: &[(
            CLAIMS,
            &["demand_3", "extends", "begins", "witness", "at_most_once", "at_most_three_equal", "nobody_forgotten", "ends_while_polled"],
        )],
    },
];

impl Demand {
    /// Each theorem is declared in its file, and its crate was proved by this gate.
    pub fn is_proved(&self, gate: &Gate) -> Result<(), String> {
        for (file, names) in self.theorems {
            let (name, path) = tree::in_crates(file);
            gate.of(name).map_err(|why| format!("{path}: {why}"))?;
            let text = tree::text(&path)?;
            if let Some(lost) = names.iter().find(|n| !tree::declares(&text, n)) {
                return Err(format!("{path} has no theorem {lost}"));
            }
        }
        Ok(())
    }
}
