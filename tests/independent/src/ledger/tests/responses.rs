//! Responses: which request they end, and which they do not.

use crate::command::Fields;
use crate::ids::{RequestId, Seq};
use crate::ledger::answers::{Cause, Incoming, Polled, Word};
use crate::ledger::bench::{ack, data_nsq, data_seq, ending, payload, Bench, FIELDS, FILL};
use crate::ledger::request::State;

/// The fields of a response to the bench's requests.
const ANSWER: Fields = Fields {
    tc: 3,
    tid: 2,
    sid: 1,
    iid: 4,
    cid: 5,
};

fn incoming(fields: Fields, id: u16, data_length: usize) -> Incoming {
    Incoming {
        fields,
        request_id: RequestId(id),
        data_length,
    }
}

#[test]
fn a_response_ends_a_waiting_request() {
    let mut bench = Bench::opened(38);
    let id = bench.waiting(0);
    let received = bench.receive(&data_seq(4, &payload(ANSWER, 39, &[5, 6])), 2_999);
    assert_eq!(received.word, Some(Word::Response(incoming(ANSWER, 39, 2))));
    assert_eq!(received.ending, Some(ending(id, Cause::Response)));
    assert_eq!((received.taken, received.reply_length), (20, 10));
    assert_eq!(bench.reply[..10], ack(4));
    assert_eq!(bench.data, [&[5, 6][..], &[FILL; 248]].concat()[..]);
    assert_eq!(bench.ledger.live, []);
    // the same once more belongs to no request
    let word = bench.hear(&data_seq(5, &payload(ANSWER, 39, &[])), 2_999).0;
    assert_eq!(word, Some(Word::Unmatched(incoming(ANSWER, 39, 0))));
}

#[test]
fn a_response_after_its_time_still_ends_what_no_poll_has_ended() {
    let mut bench = Bench::opened(38);
    let id = bench.waiting(0);
    let ended = bench.hear(&data_nsq(4, &payload(ANSWER, 39, &[])), 99_999).1;
    assert_eq!(ended, Some(ending(id, Cause::Response)));
}

#[test]
fn a_response_while_in_flight_ends_the_request_and_frees_the_line() {
    let mut bench = Bench::opened(38);
    let (id, _) = bench.sent(true, 0);
    let second = bench.submit(false, 0);
    let (word, ended) = bench.hear(&data_nsq(4, &payload(ANSWER, 39, &[])), 10);
    assert_eq!(word, Some(Word::Response(incoming(ANSWER, 39, 0))));
    assert_eq!(ended, Some(ending(id, Cause::Response)));
    // the ACK for it comes late
    assert_eq!(bench.hear(&ack(0), 10), (Some(Word::Stray), None));
    bench.frame(10);
    assert_eq!(bench.ledger.live[0].flight().map(|flight| flight.seq), Some(Seq(1)));
    assert_eq!(bench.hear(&ack(0), 10), (Some(Word::Stray), None));
    let ended = Some(ending(second, Cause::Acknowledged));
    assert_eq!(bench.hear(&ack(1), 10), (None, ended));
}

#[test]
fn one_field_different_is_unmatched() {
    let answers = [
        (ANSWER, 40),
        (ANSWER, 39 + 256),
        (Fields { tc: 9, ..ANSWER }, 39),
        (Fields { tid: 9, ..ANSWER }, 39),
        (Fields { sid: 9, ..ANSWER }, 39),
        (Fields { iid: 9, ..ANSWER }, 39),
        (Fields { cid: 9, ..ANSWER }, 39),
        // TID and SID as they were submitted
        (FIELDS, 39),
    ];
    for sent_only in [true, false] {
        let mut bench = Bench::opened(38);
        bench.sent(true, 0);
        if !sent_only {
            bench.hear(&ack(0), 0);
        }
        let live = bench.ledger.live.clone();
        for (fields, id) in answers {
            let (word, ended) = bench.hear(&data_nsq(0, &payload(fields, id, &[1])), 0);
            assert_eq!(word, Some(Word::Unmatched(incoming(fields, id, 1))));
            assert_eq!((ended, bench.data), (None, [FILL; 250]));
        }
        assert_eq!(bench.ledger.live, live);
        assert!(bench.hear(&data_nsq(0, &payload(ANSWER, 39, &[])), 0).1.is_some());
    }
}

#[test]
fn an_unmatched_command_is_acknowledged() {
    let mut bench = Bench::opened(38);
    let received = bench.receive(&data_seq(7, &payload(FIELDS, 0, &[])), 0);
    assert_eq!(received.word, Some(Word::Unmatched(incoming(FIELDS, 0, 0))));
    assert_eq!(received.reply_length, 10);
    assert_eq!((&bench.reply[..10], bench.ledger.last_seq), (&ack(7)[..], Some(Seq(7))));
}

#[test]
fn equal_tid_and_sid_are_swapped_too() {
    let mut bench = Bench::opened(38);
    let fields = Fields {
        tid: 2,
        sid: 2,
        ..FIELDS
    };
    bench.ledger.submit(fields, &[], true, 0).unwrap();
    bench.frame(0);
    let ended = bench.hear(&data_nsq(0, &payload(fields, 39, &[])), 0).1;
    assert_eq!(ended, Some(ending(RequestId(39), Cause::Response)));
}

#[test]
fn a_queued_request_has_no_response() {
    let mut bench = Bench::opened(38);
    bench.submit(true, 0);
    let (word, ended) = bench.hear(&data_nsq(0, &payload(ANSWER, 39, &[])), 0);
    assert_eq!(word, Some(Word::Unmatched(incoming(ANSWER, 39, 0))));
    assert_eq!((ended, bench.ledger.live[0].state), (None, State::Queued));
}

#[test]
fn a_request_that_wants_none_has_no_response() {
    let mut bench = Bench::opened(38);
    bench.sent(false, 0);
    let (word, ended) = bench.hear(&data_nsq(0, &payload(ANSWER, 39, &[])), 0);
    assert_eq!(word, Some(Word::Unmatched(incoming(ANSWER, 39, 0))));
    assert_eq!(ended, None);
    assert!(bench.ledger.live[0].is_in_flight());
}

#[test]
fn of_equal_requests_the_one_named_ends() {
    let mut bench = Bench::opened(38);
    let ids = [0; 3].map(|clock| bench.waiting(clock));
    let ended = bench.hear(&data_nsq(0, &payload(ANSWER, 40, &[])), 0).1;
    assert_eq!(ended, Some(ending(ids[1], Cause::Response)));
    let left: Vec<_> = bench.ledger.live.iter().map(|request| request.id).collect();
    assert_eq!(left, [ids[0], ids[2]]);
    assert_eq!(bench.poll(0), Polled::Quiet(Some(3_000)));
}
