//! Poll: its four steps, their order and the quiet time.

use crate::ids::{RequestId, Seq};
use crate::ledger::answers::{Cause, Polled};
use crate::ledger::bench::{ack, ending, nak, payload, Bench, FIELDS};
use crate::ledger::request::{Flight, State};
use crate::message::{Message, DATA_SEQ};

fn ended(id: RequestId, cause: Cause) -> Polled {
    Polled::Ended(ending(id, cause))
}

#[test]
fn nothing_live_has_no_deadline() {
    let mut bench = Bench::opened(38);
    assert_eq!(bench.poll(0), Polled::Quiet(None));
    let (_, Seq(seq)) = bench.sent(false, 5);
    bench.hear(&ack(seq), 5);
    assert_eq!(bench.poll(5), Polled::Quiet(None));
}

#[test]
fn a_frame_carries_what_was_submitted() {
    let mut bench = Bench::opened(0);
    let data: Vec<u8> = (0..248).collect();
    bench.ledger.submit(FIELDS, &data, false, 0).unwrap();
    let wanted = Message::new(DATA_SEQ, 0, &payload(FIELDS, 1, &data)).bytes();
    assert_eq!(wanted.len(), 266);
    for clock in [0, 1_000, 2_000] {
        assert_eq!(bench.frame(clock), wanted);
    }
}

#[test]
fn frames_go_out_one_at_a_time_in_order_of_acceptance() {
    let mut bench = Bench::opened(38);
    let ids = [true, false, true].map(|wanted| bench.submit(wanted, 0));
    for (seq, id) in (0..).zip(ids) {
        let wanted = Message::new(DATA_SEQ, seq, &payload(FIELDS, id.0, &[])).bytes();
        assert_eq!(bench.frame(0), wanted);
        assert_eq!(bench.poll(0), Polled::Quiet(Some(1_000)));
        bench.hear(&ack(seq), 0);
    }
    assert_eq!(bench.poll(0), Polled::Quiet(Some(3_000)));
}

#[test]
fn seq_after_255_is_0() {
    let mut bench = Bench::opened(38);
    let seqs: Vec<u8> = (0..300)
        .map(|_| {
            let (_, Seq(seq)) = bench.sent(false, 0);
            bench.hear(&ack(seq), 0);
            seq
        })
        .collect();
    let wanted: Vec<u8> = (0..300).map(|number| (number % 256) as u8).collect();
    assert_eq!(seqs, wanted);
}

#[test]
fn a_frame_is_due_after_1000_ms_since_it_was_last_sent() {
    let mut bench = Bench::opened(38);
    let (id, _) = bench.sent(true, 0);
    assert_eq!(bench.poll(999), Polled::Quiet(Some(1)));
    bench.frame(1_500);
    assert_eq!(bench.poll(2_499), Polled::Quiet(Some(1)));
    bench.frame(9_000);
    let flight = Flight {
        seq: Seq(0),
        transmissions: 3,
        last_sent: 9_000,
        marked: false,
    };
    assert_eq!(bench.ledger.live[0].state, State::InFlight(flight));
    assert_eq!(bench.poll(9_999), Polled::Quiet(Some(1)));
    assert_eq!(bench.poll(10_000), ended(id, Cause::NoAcknowledgement));
}

#[test]
fn a_marked_frame_is_due_at_once() {
    let mut bench = Bench::opened(38);
    bench.sent(true, 0);
    assert_eq!(bench.poll(0), Polled::Quiet(Some(1_000)));
    bench.hear(&nak(), 0);
    assert_eq!(bench.poll(0), Polled::Sent(18));
    assert_eq!(bench.poll(0), Polled::Quiet(Some(1_000)));
}

#[test]
fn a_request_waits_3000_ms_for_its_response() {
    let mut bench = Bench::opened(38);
    let (id, _) = bench.sent(true, 0);
    bench.hear(&ack(0), 500);
    assert_eq!(bench.poll(500), Polled::Quiet(Some(3_000)));
    assert_eq!(bench.poll(3_499), Polled::Quiet(Some(1)));
    assert_eq!(bench.poll(3_500), ended(id, Cause::NoResponse));
    assert_eq!(bench.poll(3_500), Polled::Quiet(None));
}

#[test]
fn an_expired_request_ends_before_the_due_frame_and_before_a_queued_one() {
    let mut bench = Bench::opened(38);
    let waits = bench.waiting(0);
    let (flies, _) = bench.sent(false, 0);
    bench.submit(false, 0);
    assert_eq!(bench.poll(3_000), ended(waits, Cause::NoResponse));
    // one thing a poll: the frame is sent again only now, and then it is quiet, since the line is taken
    let frame = Message::new(DATA_SEQ, 1, &payload(FIELDS, flies.0, &[])).bytes();
    assert_eq!(bench.frame(3_000), frame);
    assert_eq!(bench.poll(3_000), Polled::Quiet(Some(1_000)));

    let mut bench = Bench::opened(38);
    let waits = bench.waiting(0);
    bench.submit(false, 0);
    assert_eq!(bench.poll(3_000), ended(waits, Cause::NoResponse));
    assert_eq!(bench.poll(3_000), Polled::Sent(18));
}

#[test]
fn a_frame_that_is_given_up_frees_the_line_for_the_next_poll() {
    let mut bench = Bench::opened(38);
    let (first, _) = bench.sent(false, 0);
    let second = bench.submit(false, 0);
    for clock in [1_000, 2_000] {
        bench.frame(clock);
    }
    assert_eq!(bench.poll(3_000), ended(first, Cause::NoAcknowledgement));
    let frame = Message::new(DATA_SEQ, 1, &payload(FIELDS, second.0, &[])).bytes();
    assert_eq!(bench.frame(3_000), frame);
}

#[test]
fn of_several_expired_the_one_accepted_first_ends_first() {
    let mut bench = Bench::opened(38);
    let ids = [0, 1, 2].map(|clock| bench.waiting(clock));
    for id in ids {
        assert_eq!(bench.poll(5_000), ended(id, Cause::NoResponse));
    }
    assert_eq!(bench.poll(5_000), Polled::Quiet(None));
}

#[test]
fn the_oldest_is_by_acceptance_and_the_others_are_looked_at_too() {
    // no list of calls leads here: the one accepted first waits since later
    let mut bench = Bench::opened(38);
    let ids = [0; 3].map(|clock| bench.waiting(clock));
    for (request, since) in bench.ledger.live.iter_mut().zip([2_000, 1_000, 0]) {
        request.state = State::Waiting { since };
    }
    bench.ledger.clock = 2_000;
    let mut second = bench.clone();
    assert_eq!(bench.poll(4_000), ended(ids[1], Cause::NoResponse));
    assert_eq!(bench.poll(4_000), ended(ids[2], Cause::NoResponse));
    assert_eq!(bench.poll(4_000), Polled::Quiet(Some(1_000)));
    assert_eq!(second.poll(5_000), ended(ids[0], Cause::NoResponse));
}

#[test]
fn the_quiet_time_is_the_least_of_all_deadlines() {
    let mut bench = Bench::opened(38);
    bench.waiting(0);
    bench.waiting(400);
    bench.submit(true, 2_300);
    assert_eq!(bench.frame(2_300).len(), 18);
    // the frame at 3300, the first waiting one at 3000, the second at 3400
    assert_eq!(bench.poll(2_300), Polled::Quiet(Some(700)));
    assert!(matches!(bench.poll(3_000), Polled::Ended(_)));
    assert_eq!(bench.poll(3_000), Polled::Quiet(Some(300)));
    bench.hear(&ack(2), 3_000);
    assert_eq!(bench.poll(3_000), Polled::Quiet(Some(400)));
}

#[test]
fn the_quiet_time_is_that_of_the_frame_where_it_comes_first() {
    let mut bench = Bench::opened(38);
    bench.waiting(0);
    bench.sent(true, 1);
    assert_eq!(bench.poll(1), Polled::Quiet(Some(1_000)));
    assert_eq!(bench.poll(600), Polled::Quiet(Some(401)));
}
