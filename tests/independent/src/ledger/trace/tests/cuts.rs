//! Cuts of receive: lists whose receives took bytes in pieces, and the bytes held behind them.

use super::*;
use crate::examples::{EXAMPLE_3, EXAMPLE_4, EXAMPLE_5};
use crate::message::header;

/// A receive that is handed these bytes and takes so many of them.
fn taking(new: &[u8], taken: usize, item: Item) -> Step {
    let (mut reply, data) = (vec![0; 10], vec![0; 248]);
    let call = Call::Receive {
        new: new.to_vec(),
        reply: reply.clone(),
        data: data.clone(),
        clock: 0,
    };
    if item == Item::DamagedPayload {
        reply = EXAMPLE_5.to_vec();
    }
    let answer = Ok(Received {
        item,
        word: matches!(item, Item::Message { .. }).then_some(Word::Stray),
        taken,
        reply_length: if item == Item::DamagedPayload { 10 } else { 0 },
        ending: None,
    });
    (call, Outcome::Receive { answer, reply, data })
}

/// A receive without room for a reply, which takes nothing.
fn refused(new: &[u8]) -> Step {
    let call = Call::Receive {
        new: new.to_vec(),
        reply: vec![],
        data: vec![],
        clock: 0,
    };
    let outcome = Outcome::Receive {
        answer: Err(6),
        reply: vec![],
        data: vec![],
    };
    (call, outcome)
}

fn ack(seq: u8) -> Item {
    Item::Message {
        kind: ACK,
        seq: Seq(seq),
        len: 0,
    }
}

/// A list with these bytes held behind it: how many items they still decide.
fn at_once(steps: &[Step], held: &[u8]) -> Result<usize, String> {
    recorded(steps).cuts.at_once(held)
}

fn differs(words: &str, steps: &[Step], held: &[u8]) {
    let failure = at_once(steps, held).expect_err(words);
    assert!(failure.contains(words), "{failure}");
}

/// Two ACKs in three pieces, the second with an untaken rest, and then *more* with a lone AA held.
fn two_acks() -> Vec<Step> {
    vec![
        taking(&[&[0], &EXAMPLE_3[..4]].concat(), 5, Item::More),
        taking(&[&EXAMPLE_3[4..], &EXAMPLE_4[..]].concat(), 6, ack(0)),
        taking(&EXAMPLE_4, 10, ack(255)),
        taking(&[7, 0xAA], 2, Item::More),
    ]
}

#[test]
fn items_in_pieces_and_at_once() {
    let list = two_acks();
    assert_eq!(at_once(&list, &[0xAA]), Ok(0));
    assert_eq!(at_once(&list[..3], &[]), Ok(0));
    assert_eq!(at_once(&[&list[..], &[refused(&EXAMPLE_3)]].concat(), &[0xAA]), Ok(0));
    assert_eq!(at_once(&[], &[]), Ok(0));
}

#[test]
fn other_items() {
    let list = two_acks();
    let changed = |at: usize, step: Step| {
        let mut list = two_acks();
        list[at] = step;
        list
    };
    let dropped = changed(2, taking(&EXAMPLE_4, 10, Item::More));
    let another = changed(2, taking(&EXAMPLE_4, 10, ack(254)));
    let untaken = changed(2, taking(&EXAMPLE_4, 9, ack(255)));
    let again = [&list[..], &[taking(&[], 0, ack(255))]].concat();
    let exchanged = [&list[1..3], &list[..1], &list[3..]].concat();
    for wrong in [dropped, another, untaken, again, exchanged] {
        differs("items at once", &wrong, &[0xAA]);
    }
    found("11 taken of 10", &[taking(&EXAMPLE_4, 11, ack(255))]);
}

#[test]
fn other_bytes_held() {
    for held in [&[][..], &[0xAA, 0x55], &[0x55, 0xAA, 0x55]] {
        differs("held at once", &two_acks(), held);
    }
    differs("items at once", &two_acks(), &EXAMPLE_3);
    differs("held at once", &[], &[0xAA]);
    // dropped bytes are not held behind *more*, nor where no receive was
    differs("after *more*", &two_acks(), &[7, 0xAA]);
    differs("after *more*", &[], &[7]);
}

#[test]
fn items_of_held_bytes() {
    // two ACKs within a message whose payload checksum is wrong
    let damaged = [&header(DATA_SEQ, 20, 1), &EXAMPLE_3[..], &EXAMPLE_4, &[0, 0]].concat();
    let list = [
        taking(&damaged, 30, Item::DamagedPayload),
        taking(&[], 0, ack(0)),
        taking(&[], 0, ack(255)),
        taking(&[], 0, Item::More),
    ];
    assert_eq!(at_once(&list[..1], &damaged[2..]), Ok(2));
    assert_eq!(at_once(&list[..2], &damaged[18..]), Ok(1));
    assert_eq!(at_once(&list[..3], &damaged[28..]), Ok(0));
    assert_eq!(at_once(&list, &[]), Ok(0));
    differs("items at once", &list[..1], &damaged[18..]);
    differs("items at once", &list[..2], &damaged[2..]);
    // the second ACK may not be left behind *more*
    let early = [list[0].clone(), list[1].clone(), list[3].clone()];
    differs("after *more*", &early, &damaged[18..]);
}
