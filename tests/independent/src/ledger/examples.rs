//! Document 01's fourteen bench examples, one after another, on this implementation.

use super::answers::{Cause, Item, Polled, Received, Word};
use super::bench::{ack, data_seq, ending, nak, Bench, FIELDS};
use super::refusals::{DATA_OVER_248, THREE_LIVE};
use crate::checksum::checksum;
use crate::command::Fields;
use crate::examples as bytes;
use crate::ids::{RequestId, Seq};
use crate::message::ACK;

#[test]
fn example_1() {
    assert_eq!(checksum(&[]), 0xFFFF);
}

#[test]
fn example_2() {
    assert_eq!(checksum(b"123456789"), 0x29B1);
}

/// What a ledger replies to a DATA_SEQ message with this SEQ.
fn reply(seq: u8) -> Vec<u8> {
    let mut bench = Bench::opened(38);
    let received = bench.receive(&data_seq(seq, &[1]), 0);
    bench.reply[..received.reply_length].to_vec()
}

#[test]
fn example_3() {
    assert_eq!(ack(0), bytes::EXAMPLE_3);
    assert_eq!(reply(0), bytes::EXAMPLE_3);
}

#[test]
fn example_4() {
    assert_eq!(ack(255), bytes::EXAMPLE_4);
    assert_eq!(reply(255), bytes::EXAMPLE_4);
}

#[test]
fn example_5() {
    assert_eq!(nak(), bytes::EXAMPLE_5);
}

#[test]
fn example_6() {
    let mut bench = Bench::opened(38);
    let fields = Fields {
        tc: 3,
        tid: 1,
        sid: 0,
        iid: 1,
        cid: 1,
    };
    assert_eq!(bench.ledger.submit(fields, &[], false, 0), Ok(RequestId(39)));
    assert_eq!(bench.frame(0), bytes::EXAMPLE_6);
}

#[test]
fn example_7() {
    // "one ACK, 12 taken"; nothing is in flight, so it is stray
    let mut bench = Bench::opened(38);
    let item = Item::Message {
        kind: ACK,
        seq: Seq(0),
        len: 0,
    };
    let wanted = Received {
        item,
        word: Some(Word::Stray),
        taken: 12,
        reply_length: 0,
        ending: None,
    };
    assert_eq!(bench.receive(&bytes::example_7(), 0), wanted);
    assert_eq!(bench.ledger.line.held, []);
}

#[test]
fn example_8() {
    let mut bench = Bench::opened(38);
    let wanted = Received {
        item: Item::More,
        word: None,
        taken: 9,
        reply_length: 0,
        ending: None,
    };
    assert_eq!(bench.receive(&bytes::example_8(), 0), wanted);
    assert_eq!(bench.ledger.line.held, bytes::example_8());
}

#[test]
fn example_9() {
    let mut bench = Bench::opened(38);
    let wanted = Received {
        item: Item::DamagedPayload,
        word: None,
        taken: 10,
        reply_length: 10,
        ending: None,
    };
    assert_eq!(bench.receive(&bytes::example_9(), 0), wanted);
    assert_eq!(bench.reply[..10], bytes::EXAMPLE_5);
    assert_eq!(bench.ledger.line.held, bytes::example_9()[2..]);
}

#[test]
fn example_10() {
    let mut bench = Bench::opened(38);
    let id = bench.submit(false, 0);
    let answers = [0, 0, 999, 1_000, 2_000, 3_000].map(|clock| bench.poll(clock));
    let wanted = [
        Polled::Sent(18),
        Polled::Quiet(Some(1_000)),
        Polled::Quiet(Some(1)),
        Polled::Sent(18),
        Polled::Sent(18),
        Polled::Ended(ending(id, Cause::NoAcknowledgement)),
    ];
    assert_eq!(answers, wanted);
}

#[test]
fn example_11() {
    let mut bench = Bench::opened(38);
    let id = bench.submit(false, 0);
    assert_eq!([0, 1_000, 2_000].map(|clock| bench.poll(clock)), [Polled::Sent(18); 3]);
    assert_eq!(bench.hear(&nak(), 2_005), (None, None));
    let wanted = Polled::Ended(ending(id, Cause::NoAcknowledgement));
    assert_eq!(bench.poll(2_005), wanted);
}

#[test]
fn example_12() {
    // from open: every ID from 256 to 65535 is issued and its request acknowledged before the next submit
    let mut bench = Bench::opened(255);
    for id in 256..=65_535 {
        let (issued, Seq(seq)) = bench.sent(false, 0);
        assert_eq!(
            (issued, usize::from(seq)),
            (RequestId(id), (usize::from(id) - 256) % 256)
        );
        assert_eq!(bench.hear(&ack(seq), 0).1, Some(ending(issued, Cause::Acknowledged)));
    }
    assert_eq!(bench.ledger.live, []);
    assert_eq!(bench.submit(false, 0), RequestId(256));
}

#[test]
fn example_13() {
    let mut bench = Bench::opened(38);
    for id in [39, 40, 41] {
        assert_eq!(bench.submit(false, 0), RequestId(id));
    }
    assert_eq!(bench.ledger.submit(FIELDS, &[], false, 0), Err(THREE_LIVE));
    bench.frame(0);
    let ended = Some(ending(RequestId(39), Cause::Acknowledged));
    assert_eq!(bench.hear(&ack(0), 0), (None, ended));
    assert_eq!(bench.ledger.submit(FIELDS, &[], false, 0), Ok(RequestId(42)));
    assert_eq!(bench.ledger.submit(FIELDS, &[], false, 0), Err(THREE_LIVE));
}

#[test]
fn example_14() {
    let mut bench = Bench::opened(38);
    for _ in 0..3 {
        bench.submit(false, 0);
    }
    assert_eq!(bench.ledger.submit(FIELDS, &[0; 249], false, 0), Err(DATA_OVER_248));
}
