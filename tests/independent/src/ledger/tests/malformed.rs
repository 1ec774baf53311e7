//! Malformed: one ledger for each fault of the list, and those that just have none.

use crate::ids::{RequestId, Seq};
use crate::ledger::bench::Bench;
use crate::ledger::request::{Flight, State};
use crate::ledger::Ledger;

const FLIGHT: Flight = Flight {
    seq: Seq(1),
    transmissions: 1,
    last_sent: 100,
    marked: false,
};

/// Request 39 waits since 50, 40 is in flight since 100, 41 is queued; the clock is 100.
fn sound() -> Ledger {
    let mut bench = Bench::opened(38);
    bench.waiting(50);
    bench.sent(false, 100);
    bench.submit(true, 100);
    assert_eq!(bench.ledger.live[1].state, State::InFlight(FLIGHT));
    bench.ledger
}

/// Whether the sound ledger is malformed with this change.
fn malformed(change: impl Fn(&mut Ledger)) -> bool {
    let mut ledger = sound();
    assert!(!ledger.malformed());
    change(&mut ledger);
    ledger.malformed()
}

fn flight(flight: Flight) -> bool {
    malformed(|ledger| ledger.live[1].state = State::InFlight(flight))
}

#[test]
fn r_over_255() {
    for r in [256, 65_535, 65_536, u64::MAX] {
        assert!(malformed(|ledger| ledger.r = r));
    }
}

#[test]
fn more_than_three_live() {
    let fourth = |ledger: &mut Ledger| {
        let queued = ledger.live[2].clone();
        let id = RequestId(1_000);
        ledger.live.push(crate::ledger::request::Request { id, ..queued });
    };
    assert!(malformed(fourth));
}

#[test]
fn ids_outside() {
    assert!(malformed(|ledger| ledger.next_id = RequestId(38)));
    assert!(malformed(|ledger| ledger.next_id = RequestId(0)));
    assert!(malformed(|ledger| ledger.live[2].id = RequestId(38)));
    assert!(malformed(|ledger| ledger.live[0].id = RequestId(0)));
    assert!(malformed(|ledger| ledger.r = 39));
    // the next ID may be a live one, and any up to 65535
    assert!(!malformed(|ledger| ledger.next_id = RequestId(39)));
    assert!(!malformed(|ledger| ledger.next_id = RequestId(65_535)));
    assert!(!malformed(|ledger| ledger.live[2].id = RequestId(65_535)));
}

#[test]
fn two_equal_ids() {
    for (one, other) in [(0, 1), (0, 2), (1, 2)] {
        assert!(malformed(|ledger| ledger.live[one].id = ledger.live[other].id));
    }
}

#[test]
fn two_in_flight() {
    for place in [0, 2] {
        assert!(malformed(|ledger| ledger.live[place].state = State::InFlight(FLIGHT)));
    }
}

#[test]
fn transmissions_not_1_to_3() {
    for (transmissions, wanted) in [(0, true), (1, false), (2, false), (3, false), (4, true), (255, true)] {
        assert_eq!(
            flight(Flight {
                transmissions,
                ..FLIGHT
            }),
            wanted
        );
    }
}

#[test]
fn data_over_248() {
    for place in 0..3 {
        assert!(malformed(|ledger| ledger.live[place].data = vec![0; 249]));
        assert!(!malformed(|ledger| ledger.live[place].data = vec![0; 248]));
    }
}

#[test]
fn waiting_for_no_response() {
    assert!(malformed(|ledger| ledger.live[0].wanted = false));
    assert!(!malformed(|ledger| ledger.live[2].wanted = false));
}

#[test]
fn a_time_later_than_the_clock() {
    assert!(flight(Flight {
        last_sent: 101,
        ..FLIGHT
    }));
    assert!(malformed(|ledger| ledger.clock = 99));
    assert!(malformed(|ledger| ledger.live[0].state = State::Waiting { since: 101 }));
    assert!(!malformed(|ledger| ledger.live[0].state = State::Waiting { since: 100 }));
}

#[test]
fn more_than_265_held() {
    assert!(malformed(|ledger| ledger.line.held = vec![0; 266]));
    assert!(!malformed(|ledger| ledger.line.held = vec![0; 265]));
}
