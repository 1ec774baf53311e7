//! Submit: which ID is issued, and how the request joins.

use crate::ids::{RequestId, Seq};
use crate::ledger::answers::Cause;
use crate::ledger::bench::{ack, ending, Bench, FIELDS};
use crate::ledger::request::{Request, State};

#[test]
fn the_request_joins_as_queued_behind_the_others() {
    let mut bench = Bench::opened(38);
    bench.sent(true, 5);
    assert_eq!(bench.ledger.submit(FIELDS, &[1, 2], true, 6), Ok(RequestId(40)));
    let wanted = Request {
        id: RequestId(40),
        fields: FIELDS,
        data: vec![1, 2],
        wanted: true,
        state: State::Queued,
    };
    assert_eq!(bench.ledger.live[1..], [wanted]);
    assert_eq!((bench.ledger.clock, bench.ledger.next_id), (6, RequestId(41)));
    // the next SEQ moves at a frame's first transmission alone
    assert_eq!(bench.ledger.next_seq, Seq(1));
}

#[test]
fn an_id_is_not_used_again_at_once() {
    let mut bench = Bench::opened(0);
    for id in 1..=10 {
        let (issued, Seq(seq)) = bench.sent(false, 0);
        assert_eq!(issued, RequestId(id));
        assert_eq!(bench.hear(&ack(seq), 0).1, Some(ending(issued, Cause::Acknowledged)));
    }
}

#[test]
fn after_65535_comes_r_plus_1() {
    for r in [0, 1, 38, 255] {
        let mut bench = Bench::opened(r);
        bench.ledger.next_id = RequestId(65_534);
        let issued = [0; 3].map(|clock| bench.submit(false, clock));
        assert_eq!(issued, [65_534, 65_535, r as u16 + 1].map(RequestId));
        assert_eq!(bench.ledger.next_id, RequestId(r as u16 + 2));
    }
}

#[test]
fn live_ids_are_passed_over() {
    let mut bench = Bench::opened(38);
    bench.submit(true, 0);
    bench.submit(true, 0);
    bench.ledger.next_id = RequestId(65_535);
    assert_eq!(bench.submit(true, 0), RequestId(65_535));
    assert_eq!(bench.ledger.next_id, RequestId(39));
    // the first of the three ends; 40 is still live, and so is 65535
    bench.ledger.live.remove(0);
    bench.ledger.next_id = RequestId(65_535);
    assert_eq!(bench.submit(true, 0), RequestId(39));
    // "The next request ID is then the one after it", live or not
    assert_eq!(bench.ledger.next_id, RequestId(40));
    bench.ledger.live.remove(1);
    assert_eq!(bench.submit(true, 0), RequestId(41));
    assert_eq!(bench.ledger.next_id, RequestId(42));
}

#[test]
fn a_live_id_is_passed_over_after_a_whole_round_from_open() {
    // request 256 waits while all others come and go at the same reading
    let mut bench = Bench::opened(255);
    assert_eq!(bench.waiting(0), RequestId(256));
    for id in 257..=65_535 {
        let (issued, Seq(seq)) = bench.sent(false, 0);
        assert_eq!(issued, RequestId(id));
        bench.hear(&ack(seq), 0);
    }
    assert_eq!(bench.ledger.next_id, RequestId(256));
    assert_eq!(bench.submit(false, 0), RequestId(257));
    assert_eq!(bench.ledger.next_id, RequestId(258));
}
