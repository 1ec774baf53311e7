//! DATA_SEQ and DATA_NSQ: the reply, repeats, what is not a command, and events.

use crate::ids::{RequestId, Seq};
use crate::ledger::answers::{Incoming, Item, Received, Word};
use crate::ledger::bench::{ack, data_nsq, data_seq, payload, Bench, FIELDS, FILL};
use crate::message::{DATA_NSQ, DATA_SEQ};

/// What is answered for a command with the bench's fields.
fn incoming(id: u16, data_length: usize) -> Incoming {
    Incoming {
        fields: FIELDS,
        request_id: RequestId(id),
        data_length,
    }
}

#[test]
fn an_event_is_acknowledged_and_handed_on() {
    let mut bench = Bench::opened(38);
    let event = data_seq(9, &payload(FIELDS, 5, &[10, 11, 12]));
    let item = Item::Message {
        kind: DATA_SEQ,
        seq: Seq(9),
        len: 11,
    };
    let wanted = Received {
        item,
        word: Some(Word::Event(incoming(5, 3))),
        taken: 21,
        reply_length: 10,
        ending: None,
    };
    assert_eq!(bench.receive(&event, 0), wanted);
    assert_eq!(bench.reply, [&ack(9)[..], &[FILL; 2]].concat()[..]);
    assert_eq!(bench.data, [&[10, 11, 12][..], &[FILL; 247]].concat()[..]);
    assert_eq!(bench.ledger.last_seq, Some(Seq(9)));
}

#[test]
fn a_repeat_is_acknowledged_and_nothing_more() {
    let mut bench = Bench::opened(38);
    let id = bench.waiting(0);
    bench.hear(&data_seq(9, &payload(FIELDS, 5, &[1])), 0);
    let before = bench.ledger.clone();
    // equal SEQ is all that counts: these are the same event, a response, another event, and not a command
    let response = payload(FIELDS.swapped(), id.0, &[]);
    for payload in [payload(FIELDS, 5, &[1]), response, payload(FIELDS, 6, &[2]), vec![0]] {
        let received = bench.receive(&data_seq(9, &payload), 0);
        assert_eq!((received.word, received.ending), (Some(Word::Repeat), None));
        assert_eq!(received.reply_length, 10);
        assert_eq!(bench.reply[..10], ack(9));
        assert_eq!(bench.data, [FILL; 250]);
    }
    assert_eq!(bench.ledger, before);
}

#[test]
fn only_the_very_last_seq_makes_a_repeat() {
    let mut bench = Bench::opened(38);
    let event = |seq: u8| data_seq(seq, &payload(FIELDS, 5, &[]));
    let heard = [0, 1, 0, 0, 255, 0].map(|seq| bench.hear(&event(seq), 0).0);
    let event = Some(Word::Event(incoming(5, 0)));
    assert_eq!(heard, [event, event, event, Some(Word::Repeat), event, event]);
}

#[test]
fn the_first_frame_is_no_repeat_whatever_its_seq() {
    for seq in 0..=255 {
        let mut bench = Bench::opened(0);
        assert_eq!(bench.hear(&data_seq(seq, &[1]), 0).0, Some(Word::NotACommand));
    }
}

#[test]
fn the_last_seq_is_the_controllers_and_not_ours() {
    let mut bench = Bench::opened(38);
    bench.sent(true, 0);
    assert_eq!((bench.ledger.next_seq, bench.ledger.last_seq), (Seq(1), None));
    bench.hear(&data_seq(0, &[1]), 0);
    assert_eq!((bench.ledger.next_seq, bench.ledger.last_seq), (Seq(1), Some(Seq(0))));
}

#[test]
fn data_nsq_has_no_reply_and_no_comparison() {
    let mut bench = Bench::opened(38);
    bench.hear(&data_seq(9, &[1]), 0);
    for seq in [9, 9, 8] {
        let received = bench.receive(&data_nsq(seq, &payload(FIELDS, 5, &[4])), 0);
        assert_eq!(received.word, Some(Word::Event(incoming(5, 1))));
        assert_eq!((received.taken, received.reply_length), (19, 0));
        assert!(matches!(received.item, Item::Message { kind: DATA_NSQ, .. }));
        assert_eq!(bench.reply, [FILL; 12]);
        assert_eq!(bench.data[..2], [4, FILL]);
        assert_eq!(bench.ledger.last_seq, Some(Seq(9)));
    }
    assert_eq!(bench.hear(&data_seq(9, &[1]), 0).0, Some(Word::Repeat));
}

#[test]
fn not_a_command() {
    let mut bench = Bench::opened(255);
    let command = payload(FIELDS, 5, &[1]);
    let not_0x80 = [&[0x81], &command[1..]].concat();
    let payloads = [&command[..1], &command[..7], &not_0x80, &[0; 256]];
    for (seq, payload) in (0..).zip(payloads) {
        let received = bench.receive(&data_seq(seq, payload), 0);
        assert_eq!((received.word, received.reply_length), (Some(Word::NotACommand), 10));
        assert_eq!(bench.reply[..10], ack(seq));
        let received = bench.receive(&data_nsq(seq, payload), 0);
        assert_eq!((received.word, received.reply_length), (Some(Word::NotACommand), 0));
        assert_eq!(bench.data, [FILL; 250]);
        // it becomes the last SEQ as any other
        assert_eq!(bench.ledger.last_seq, Some(Seq(seq)));
    }
    assert_eq!(
        bench.hear(&data_seq(9, &command[..8]), 0).0,
        Some(Word::Event(incoming(5, 0)))
    );
}

#[test]
fn events_are_1_to_r() {
    for r in [0, 1, 38, 255] {
        for id in [0, 1, 2, 37, 38, 39, 254, 255, 256, 257, 65_535] {
            let mut bench = Bench::opened(r);
            let (word, ending) = bench.hear(&data_seq(0, &payload(FIELDS, id, &[8])), 0);
            let reserved = 1 <= id && u64::from(id) <= r;
            let (wanted, first) = match reserved {
                true => (Word::Event(incoming(id, 1)), 8),
                false => (Word::Unmatched(incoming(id, 1)), FILL),
            };
            assert_eq!((word, ending), (Some(wanted), None), "R {r}, RQID {id}");
            assert_eq!(bench.data, [&[first][..], &[FILL; 249]].concat()[..]);
        }
    }
}

#[test]
fn the_most_data() {
    let mut bench = Bench::opened(1);
    let data = [9; 248];
    let (word, _) = bench.hear(&data_nsq(0, &payload(FIELDS, 1, &data)), 0);
    assert_eq!(word, Some(Word::Event(incoming(1, 248))));
    assert_eq!(bench.data, [&data[..], &[FILL; 2]].concat()[..]);
}
