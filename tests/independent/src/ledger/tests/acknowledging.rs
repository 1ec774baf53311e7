//! ACK and NAK, and the replies to what is damaged or forbidden.

use crate::ids::Seq;
use crate::ledger::answers::{Cause, Item, Polled, Word};
use crate::ledger::bench::{ack, ending, nak, Bench, FILL};
use crate::ledger::request::{Flight, State};
use crate::message::{header, Message, ACK, DATA_NSQ, DATA_SEQ, NAK};

const STRAY: Option<Word> = Some(Word::Stray);

#[test]
fn an_ack_ends_a_request_that_wants_no_response() {
    let mut bench = Bench::opened(38);
    let (id, _) = bench.sent(false, 0);
    assert_eq!(bench.hear(&ack(0), 1), (None, Some(ending(id, Cause::Acknowledged))));
    assert_eq!(bench.ledger.live, []);
    assert_eq!(bench.hear(&ack(0), 1), (STRAY, None));
}

#[test]
fn an_ack_makes_a_request_wait_from_its_reading() {
    let mut bench = Bench::opened(38);
    bench.sent(true, 0);
    assert_eq!(bench.hear(&ack(0), 700), (None, None));
    assert_eq!(bench.ledger.live[0].state, State::Waiting { since: 700 });
    // another ACK with the same SEQ is stray, and the wait goes on
    assert_eq!(bench.hear(&ack(0), 800), (STRAY, None));
    assert_eq!(bench.ledger.live[0].state, State::Waiting { since: 700 });
}

#[test]
fn an_ack_for_another_seq_is_stray() {
    let mut bench = Bench::opened(38);
    bench.waiting(0);
    bench.sent(false, 0);
    let before = bench.ledger.clone();
    for seq in (0..=255).filter(|&seq| seq != 1) {
        assert_eq!(bench.hear(&ack(seq), 0), (STRAY, None), "SEQ {seq}");
    }
    assert_eq!(bench.ledger, before);
}

#[test]
fn an_ack_with_nothing_in_flight_is_stray() {
    let mut bench = Bench::opened(38);
    assert_eq!(bench.hear(&ack(0), 0), (STRAY, None));
    bench.submit(false, 0);
    assert_eq!(bench.hear(&ack(0), 0), (STRAY, None));
    // the next SEQ is 0, and the frame is not yet sent
    assert_eq!(bench.poll(0), Polled::Sent(18));
}

#[test]
fn an_ack_ends_the_frame_whatever_was_marked_or_sent_again() {
    let mut bench = Bench::opened(38);
    let (id, _) = bench.sent(false, 0);
    bench.frame(1_000);
    bench.frame(2_000);
    bench.hear(&nak(), 3_500);
    let ended = Some(ending(id, Cause::Acknowledged));
    assert_eq!(bench.hear(&ack(0), 3_500), (None, ended));
}

#[test]
fn a_nak_marks_the_frame_and_the_next_poll_sends_it_again() {
    let mut bench = Bench::opened(38);
    bench.submit(false, 0);
    let first = bench.frame(0);
    // its SEQ "is ignored"
    let any_nak = Message::new(NAK, 77, &[]).bytes();
    assert_eq!(bench.hear(&any_nak, 1), (None, None));
    assert_eq!(bench.hear(&nak(), 1), (None, None));
    let marked = Flight {
        seq: Seq(0),
        transmissions: 1,
        last_sent: 0,
        marked: true,
    };
    assert_eq!(bench.ledger.live[0].state, State::InFlight(marked));
    assert_eq!(bench.frame(1), first);
    let again = Flight {
        transmissions: 2,
        last_sent: 1,
        marked: false,
        ..marked
    };
    assert_eq!(bench.ledger.live[0].state, State::InFlight(again));
    assert_eq!(bench.poll(1), Polled::Quiet(Some(1_000)));
}

#[test]
fn naks_do_not_restart_the_count() {
    let mut bench = Bench::opened(38);
    let (id, _) = bench.sent(true, 0);
    for _ in 0..2 {
        bench.hear(&nak(), 0);
        assert_eq!(bench.poll(0), Polled::Sent(18));
    }
    bench.hear(&nak(), 0);
    assert_eq!(bench.poll(0), Polled::Ended(ending(id, Cause::NoAcknowledgement)));
    assert_eq!(bench.ledger.next_seq, Seq(1));
}

#[test]
fn a_nak_with_nothing_in_flight_is_stray() {
    let mut bench = Bench::opened(38);
    assert_eq!(bench.hear(&nak(), 0), (STRAY, None));
    bench.waiting(0);
    bench.submit(true, 0);
    assert_eq!(bench.hear(&nak(), 0), (STRAY, None));
    // the queued frame has no mark when it goes out
    bench.frame(0);
    assert_eq!(bench.poll(0), Polled::Quiet(Some(1_000)));
}

#[test]
fn damaged_is_answered_by_nak_whatever_the_type() {
    for kind in [NAK, ACK, DATA_SEQ, DATA_NSQ, 0x11] {
        let mut bytes = header(kind, 0, 9);
        bytes[7] ^= 1;
        let mut bench = Bench::opened(38);
        bench.sent(true, 0);
        let before = bench.ledger.live.clone();
        let received = bench.receive(&bytes, 3);
        assert_eq!((received.item, received.word), (Item::DamagedHeader, None));
        assert_eq!((received.taken, received.reply_length, received.ending), (8, 10, None));
        assert_eq!(bench.reply[..10], nak());
        assert_eq!((&bench.ledger.live, bench.ledger.clock), (&before, 3));
    }
}

#[test]
fn a_damaged_data_frame_is_no_repeat_later() {
    let mut bench = Bench::opened(38);
    let mut bytes = Message::new(DATA_SEQ, 4, &[1]).bytes();
    bytes[10] ^= 1;
    assert_eq!(bench.receive(&bytes, 0).item, Item::DamagedPayload);
    assert_eq!(bench.ledger.last_seq, None);
}

#[test]
fn forbidden_has_no_reply() {
    let mut bench = Bench::opened(38);
    let received = bench.receive(&header(DATA_SEQ, 257, 0), 0);
    assert_eq!((received.item, received.word), (Item::Forbidden, None));
    assert_eq!((received.taken, received.reply_length), (8, 0));
    assert_eq!(bench.reply, [FILL; 12]);
}
