//! The sample capture: what a tap on the line sees of an ordinary exchange, both directions and some noise.

use independent::message::{Message, ACK, DATA_NSQ, DATA_SEQ, NAK};

/// Three requests with their responses, events between them, and the beginning of a fourth request.
pub fn sample() -> Vec<u8> {
    [started(), second_request(), events(), third_request(), unfinished()].concat()
}

/// Noise, then the first request of an endpoint with R = 38 (example 6) and its response.
fn started() -> Vec<u8> {
    let noise = vec![0x00, 0xFF, 0xAA, 0x00, 0x13];
    let request = sequenced(0, &command(TO_CONTROLLER, 39, 1, &[]));
    let response = sequenced(0, &command(TO_HOST, 39, 1, &[0x02, 0x00, 0x19, 0x5C]));
    [noise, request, ack(0), response, ack(0)].concat()
}

/// A bit of the payload is lost on the way, so the request goes out again.
fn second_request() -> Vec<u8> {
    let request = sequenced(1, &command(TO_CONTROLLER, 40, 2, &[0x01]));
    let mut damaged = request.clone();
    damaged[16] ^= 0x08;
    let response = sequenced(1, &command(TO_HOST, 40, 2, &[0x10, 0x27, 0x00, 0x00]));
    [damaged, nak(), request, ack(1), response, ack(1)].concat()
}

/// Events: without acknowledgement, in a frame of a forbidden TYPE, and with a damaged header, so that it comes again.
fn events() -> Vec<u8> {
    let silent = Message::new(DATA_NSQ, 0, &command(TO_HOST, 5, 21, &[0x64])).bytes();
    let forbidden = Message::new(0x20, 7, &command(TO_HOST, 5, 21, &[0x63])).bytes();
    let event = sequenced(2, &command(TO_HOST, 8, 22, b"battery changed"));
    let mut damaged = event.clone();
    damaged[3] ^= 0x40;
    [silent, forbidden, damaged, nak(), event, ack(2)].concat()
}

/// The response comes twice, as its first acknowledgement is lost in noise.
fn third_request() -> Vec<u8> {
    let request = sequenced(2, &command(TO_CONTROLLER, 41, 7, b"bench tablet 12"));
    let response = sequenced(3, &command(TO_HOST, 41, 7, &[0x00; 24]));
    let noise = vec![0xAA, 0x17, 0x55, 0xAA];
    [request, ack(2), response.clone(), noise, response, ack(3)].concat()
}

fn unfinished() -> Vec<u8> {
    sequenced(3, &command(TO_CONTROLLER, 42, 7, &[0x11; 40]))[..31].to_vec()
}

/// TID and SID of a request; a response has them swapped.
const TO_CONTROLLER: [u8; 2] = [1, 0];
const TO_HOST: [u8; 2] = [0, 1];

/// "0x80, TC, TID, SID, IID, RQID (2), CID", then the data; TC is 3 and IID is 1.
fn command([tid, sid]: [u8; 2], request_id: u8, cid: u8, data: &[u8]) -> Vec<u8> {
    [&[0x80, 3, tid, sid, 1, request_id, 0, cid], data].concat()
}

fn sequenced(seq: u8, payload: &[u8]) -> Vec<u8> {
    Message::new(DATA_SEQ, seq, payload).bytes()
}

fn ack(seq: u8) -> Vec<u8> {
    Message::new(ACK, seq, &[]).bytes()
}

fn nak() -> Vec<u8> {
    Message::new(NAK, 0, &[]).bytes()
}
