//! Held bytes and untaken rests through receive.

use crate::examples::{EXAMPLE_3, EXAMPLE_4};
use crate::ids::Seq;
use crate::ledger::answers::{Item, Word};
use crate::ledger::bench::{ack, data_seq, nak, payload, Bench, FIELDS, FILL};
use crate::message::{header, DATA_SEQ};

#[test]
fn one_item_a_call_and_the_rest_again() {
    let mut bench = Bench::opened(38);
    bench.sent(true, 0);
    let event = data_seq(3, &payload(FIELDS, 1, &[1]));
    let bytes = [&[0x00][..], &ack(0), &event, &nak()[..4]].concat();
    let received = bench.receive(&bytes, 0);
    assert_eq!((received.taken, received.word), (11, None));
    let received = bench.receive(&bytes[11..], 0);
    assert_eq!(received.taken, 19);
    assert!(matches!(received.word, Some(Word::Event(_))));
    let received = bench.receive(&bytes[30..], 0);
    assert_eq!((received.item, received.taken), (Item::More, 4));
    assert_eq!(bench.ledger.line.held, nak()[..4]);
    // the NAK's second half: the request waits, so it is stray
    let received = bench.receive(&nak()[4..], 0);
    assert_eq!((received.taken, received.word), (6, Some(Word::Stray)));
}

#[test]
fn items_from_held_bytes_alone() {
    // a damaged message with two ACKs in its payload; the search goes on right behind its SYN
    let damaged = [&header(DATA_SEQ, 20, 1), &EXAMPLE_3[..], &EXAMPLE_4, &[0, 0]].concat();
    let mut bench = Bench::opened(38);
    bench.sent(true, 0);
    let received = bench.receive(&damaged, 0);
    assert_eq!((received.item, received.taken), (Item::DamagedPayload, 30));
    assert_eq!((received.reply_length, &bench.reply[..10]), (10, &nak()[..]));
    assert_eq!(bench.ledger.last_seq, None);
    let received = bench.receive(&[], 0);
    assert_eq!((received.word, received.taken), (None, 0));
    assert!(!bench.ledger.live[0].is_in_flight());
    let received = bench.receive(&[FILL], 0);
    let ack_255 = Item::Message {
        kind: crate::message::ACK,
        seq: Seq(255),
        len: 0,
    };
    assert_eq!((received.item, received.word), (ack_255, Some(Word::Stray)));
    assert_eq!((received.taken, bench.ledger.line.held.len()), (0, 2));
    assert_eq!(bench.receive(&[FILL], 0).item, Item::More);
    assert_eq!(bench.ledger.line.held, []);
}

#[test]
fn more_leaves_both_buffers() {
    let mut bench = Bench::opened(38);
    let received = bench.receive(&[0xAA, 0x55, 0x80], 9);
    assert_eq!(
        (received.item, received.taken, received.reply_length),
        (Item::More, 3, 0)
    );
    assert_eq!((bench.reply, bench.data), ([FILL; 12], [FILL; 250]));
    assert_eq!(bench.ledger.clock, 9);
}
