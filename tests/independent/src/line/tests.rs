//! Document 01's examples call by call, and each call beside the rule by the letter.

use super::*;
use crate::examples::{
    example_7, example_8, example_9, example_of_the_lister, COMMAND, EXAMPLE_3, EXAMPLE_4, EXAMPLE_6,
};
use crate::message::{header, ACK, DATA_SEQ, SYN};

const MORE: Option<Decided> = None;

fn message(kind: u8, seq: u8, payload: &[u8]) -> Decided {
    let payload = payload.to_vec();
    Decided::Message { kind, seq, payload }
}

fn ack(seq: u8) -> Decided {
    message(ACK, seq, &[])
}

/// One call: the item, the bytes taken and the count of bytes held afterwards.
fn call(line: &mut Line, new: &[u8]) -> (Option<Decided>, usize, usize) {
    let Received { item, taken } = line.receive(new);
    (item, taken, line.held.len())
}

/// The same by the letter, each number of new bytes from the start again, and with the held bytes themselves.
fn by_the_letter(held: &[u8], new: &[u8]) -> (Option<Decided>, usize, Vec<u8>) {
    let so_far = |taken: usize| [held, &new[..taken]].concat();
    let deciding = |taken: &usize| read(&so_far(*taken)).item != Item::Undecided;
    let taken = (0..=new.len()).find(deciding).unwrap_or(new.len());
    let bytes = so_far(taken);
    let reading = read(&bytes);
    let left = &bytes[reading.dropped + reading.removed..];
    (decided(reading.item), taken, left.to_vec())
}

#[test]
fn examples_7_to_9() {
    assert_eq!(call(&mut Line::default(), &example_7()), (Some(ack(0)), 12, 0));
    assert_eq!(call(&mut Line::default(), &example_8()), (MORE, 9, 9));
    let mut line = Line::default();
    assert_eq!(call(&mut line, &example_9()), (Some(Decided::DamagedPayload), 10, 8));
    assert_eq!(line.held, example_9()[2..]);
    assert_eq!(call(&mut line, &[]), (MORE, 0, 0));
}

#[test]
fn the_listers_example() {
    let capture = example_of_the_lister();
    let mut line = Line::default();
    assert_eq!(call(&mut line, &capture), (Some(ack(0)), 10, 0));
    assert_eq!(call(&mut line, &capture[10..]), (MORE, 17, 17));
    assert_eq!(call(&mut line, &[]), (MORE, 0, 17));
    let command = Some(message(DATA_SEQ, 0, &COMMAND));
    assert_eq!(call(&mut line, &EXAMPLE_6[17..]), (command, 1, 0));
}

#[test]
fn decided_from_held_bytes_alone() {
    // the payload holds two ACKs and its checksum is wrong: the ACKs are found behind the damaged message's SYN
    let payload = [EXAMPLE_3, EXAMPLE_4].concat();
    let damaged = [&header(DATA_SEQ, 20, 1), &payload[..], &[0, 0]].concat();
    let new = [&damaged[..], &[7; 5]].concat();
    let mut line = Line::default();
    assert_eq!(call(&mut line, &new), (Some(Decided::DamagedPayload), 30, 28));
    assert_eq!(call(&mut line, &new[30..]), (Some(ack(0)), 0, 12));
    assert_eq!(call(&mut line, &new[30..]), (Some(ack(255)), 0, 2));
    assert_eq!(call(&mut line, &new[30..]), (MORE, 5, 0));
}

#[test]
fn a_lone_aa_between_two_pieces() {
    for (second, found, left) in [(&EXAMPLE_3[1..], vec![ack(0)], 0), (&[0x54, 0xAA], vec![], 1)] {
        let (items, held) = items([&[0x00, 0xAA][..], &[], second]);
        assert_eq!((items, held.len()), (found, left));
    }
}

#[test]
fn longer_than_what_is_held() {
    let mut line = Line::default();
    let junk = [0x55; 1000];
    assert_eq!(
        call(&mut line, &[&junk[..], &EXAMPLE_3].concat()),
        (Some(ack(0)), 1010, 0)
    );
    assert_eq!(call(&mut line, &[0xAA; 1000]), (MORE, 1000, 1));
    // the greatest LEN: all but the last byte is held, and with it the message is damaged
    let longest = [&header(DATA_SEQ, 256, 1), &junk[..258]].concat();
    assert_eq!(call(&mut line, &longest[..265]), (MORE, 265, 265));
    assert_eq!(
        call(&mut line, &longest[265..]),
        (Some(Decided::DamagedPayload), 1, 264)
    );
    assert_eq!(call(&mut line, &[]), (MORE, 0, 0));
}

/// Hands a piece in until *more*; each call must be what it is by the letter.
fn compared(line: &mut Line, mut piece: &[u8]) {
    loop {
        let wanted = by_the_letter(&line.held, piece);
        let Received { item, taken } = line.receive(piece);
        assert_eq!((&item, taken, &line.held), (&wanted.0, wanted.1, &wanted.2));
        if item.is_none() {
            return;
        }
        piece = &piece[taken..];
    }
}

#[test]
fn each_call_by_the_letter() {
    let nested = [&header(DATA_SEQ, 10, 0xAA), &EXAMPLE_3[..], &[0x55, 0xAA]].concat();
    let forbidden = header(ACK, 1, 0xAA);
    let bytes = [&[0, 0xAA, 0xAA][..], &nested, &forbidden, &SYN, &EXAMPLE_6, &SYN[..1]].concat();
    for first in 0..=bytes.len() {
        for second in first..=bytes.len() {
            let mut line = Line::default();
            compared(&mut line, &bytes[..first]);
            compared(&mut line, &bytes[first..second]);
        }
    }
}
