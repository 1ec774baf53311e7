//! Open: the fresh ledger, and refusal 3.

use crate::ids::{RequestId, Seq};
use crate::ledger::refusals::R_OVER_255;
use crate::ledger::{Ledger, MOST_LIVE};
use crate::line::Line;

/// "clock 0, next request ID R + 1, nothing live and nothing held", next SEQ 0, no last SEQ.
fn fresh(r: u64, next_id: u16) -> Ledger {
    Ledger {
        limit: MOST_LIVE,
        r,
        clock: 0,
        next_seq: Seq(0),
        next_id: RequestId(next_id),
        last_seq: None,
        live: vec![],
        line: Line::default(),
    }
}

#[test]
fn accepted_up_to_255() {
    assert_eq!(MOST_LIVE, 3);
    for r in 0..=255 {
        assert_eq!(Ledger::open(r), (Ok(()), fresh(r, r as u16 + 1)));
    }
}

#[test]
fn refused_above_with_the_fresh_ledger_for_0() {
    for r in [256, 257, 511, 65_535, 65_536, 1 << 32, u64::MAX - 1, u64::MAX] {
        assert_eq!(Ledger::open(r), (Err(R_OVER_255), fresh(0, 1)));
    }
    assert_eq!(R_OVER_255, 3);
}
