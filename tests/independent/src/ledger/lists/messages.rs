//! Messages as a controller might send them to this ledger, and such as differ in one thing.

use super::fields;
use crate::command::{Command, Fields};
use crate::ids::{RequestId, Seq};
use crate::ledger::request::Request;
use crate::ledger::Ledger;
use crate::message::{header, Message, ACK, DATA_NSQ, DATA_SEQ, NAK};
use crate::random::Random;

/// Every other message fits what is live, if anything does; the rest are of all kinds.
pub fn any(ledger: &Ledger, random: &mut Random) -> Vec<u8> {
    let flying = ledger.live.iter().any(Request::is_in_flight);
    match random.up_to(19) {
        0..=6 if flying => acknowledgement(ledger, random),
        0..=9 if !ledger.live.is_empty() => data_frame(ledger, response, random),
        0..=11 => acknowledgement(ledger, random),
        12 | 13 => {
            let seq = random.byte();
            Message::new(NAK, random.one_of(&[0, 0, seq]), &[]).bytes()
        }
        14 => data_frame(ledger, response, random),
        15..=17 => data_frame(ledger, event, random),
        18 => data_frame(ledger, not_a_command, random),
        _ => forbidden(random),
    }
}

/// What does nothing for any request: a NAK with nothing in flight, an ACK for an older frame, a command.
pub fn of_no_use(ledger: &Ledger, random: &mut Random) -> Vec<u8> {
    let flying = ledger.live.iter().any(Request::is_in_flight);
    match random.up_to(2) {
        0 if !flying => Message::new(NAK, 0, &[]).bytes(),
        0 | 1 => Message::new(ACK, ledger.next_seq.0.wrapping_sub(2), &[]).bytes(),
        _ => data_frame(ledger, event, random),
    }
}

/// An ACK for the frame in flight, for the one before it, or for any.
fn acknowledgement(ledger: &Ledger, random: &mut Random) -> Vec<u8> {
    let last_used = ledger.next_seq.0.wrapping_sub(1);
    let seq = match random.up_to(9) {
        0 | 1 => last_used.wrapping_sub(1),
        2 => random.byte(),
        _ => last_used,
    };
    Message::new(ACK, seq, &[]).bytes()
}

/// Mostly DATA_SEQ with the SEQ after the controller's last; a repeat, any SEQ and DATA_NSQ now and then.
fn data_frame(ledger: &Ledger, payload: fn(&Ledger, &mut Random) -> Vec<u8>, random: &mut Random) -> Vec<u8> {
    let last = ledger.last_seq.unwrap_or(Seq(255));
    let seq = match random.up_to(9) {
        0 | 1 => last,
        2 => Seq(random.byte()),
        _ => last.next(),
    };
    let kind = if random.one_in(5) { DATA_NSQ } else { DATA_SEQ };
    Message::new(kind, seq.0, &payload(ledger, random)).bytes()
}

/// The response to a request, live or not, mostly right in all fields.
fn response(ledger: &Ledger, random: &mut Random) -> Vec<u8> {
    let (mut asked, mut id) = (fields(random), ledger.next_id);
    if !ledger.live.is_empty() {
        let request = &ledger.live[random.up_to(ledger.live.len() - 1)];
        (asked, id) = (request.fields, request.id);
    }
    let mut answered = asked.swapped();
    if random.one_in(3) {
        differ(&mut answered, &mut id, random);
    }
    payload(answered, id, random)
}

/// Makes one field different, or TID and SID not swapped.
fn differ(answered: &mut Fields, id: &mut RequestId, random: &mut Random) {
    let other = 1 << random.up_to(7);
    match random.up_to(6) {
        0 => answered.tc ^= other,
        1 => answered.tid ^= other,
        2 => answered.sid ^= other,
        3 => answered.iid ^= other,
        4 => answered.cid ^= other,
        5 => *id = RequestId(id.0.wrapping_add(random.one_of(&[1, 65_535, 256]))),
        _ => *answered = answered.swapped(),
    }
}

/// A command with an ID at the ends of 1 to R, next to them, or anywhere.
fn event(ledger: &Ledger, random: &mut Random) -> Vec<u8> {
    let (r, any) = (ledger.r as u16, random.number() as u16);
    let id = random.one_of(&[0, 1, 1, r, r, r / 2, r + 1, 65_535, any]);
    let fields = fields(random);
    payload(fields, RequestId(id), random)
}

fn payload(fields: Fields, request_id: RequestId, random: &mut Random) -> Vec<u8> {
    let length = match random.up_to(59) {
        0 => 248,
        1 => random.up_to(247),
        _ => random.up_to(5),
    };
    let data = &random.bytes(length);
    Command {
        fields,
        request_id,
        data,
    }
    .payload()
}

/// "LEN under 8 or first byte not 0x80"
fn not_a_command(_: &Ledger, random: &mut Random) -> Vec<u8> {
    let length = random.one_of(&[1, 2, 7, 7, 8, 8, 9, 20]);
    let mut payload = random.bytes(length);
    payload[0] = if length < 8 { 0x80 } else { payload[0] & 0x7F };
    payload
}

/// A header that is not allowed, with its right checksum.
fn forbidden(random: &mut Random) -> Vec<u8> {
    let (kind, len) = random.one_of(&[
        (ACK, 1),
        (NAK, 256),
        (DATA_SEQ, 0),
        (DATA_NSQ, 0),
        (DATA_SEQ, 257),
        (DATA_NSQ, 60_000),
        (0x41, 0),
        (0xFF, 8),
    ]);
    header(kind, len, random.byte())
}
