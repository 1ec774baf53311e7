//! What a controller says to the endpoint of a script.

use crate::scene::Scene;
use crate::Random;
use independent::command::{Command, Fields};
use independent::ids::RequestId;
use independent::ledger::request::Request;
use independent::message::{Message, ACK, DATA_NSQ, DATA_SEQ, NAK};

pub fn ack(seq: u8) -> Vec<u8> {
    Message::new(ACK, seq, &[]).bytes()
}

/// "A written NAK has SEQ 0; a read one may have any, and it is ignored."
pub fn nak(random: &mut Random) -> Vec<u8> {
    let any = random.byte();
    Message::new(NAK, random.one_of(&[0, 0, any]), &[]).bytes()
}

/// DATA_SEQ with a SEQ that is no repeat, or DATA_NSQ.
pub fn data(scene: &Scene, payload: &[u8], random: &mut Random) -> Vec<u8> {
    if random.one_in(4) {
        return Message::new(DATA_NSQ, random.byte(), payload).bytes();
    }
    Message::new(DATA_SEQ, scene.fresh_seq(), payload).bytes()
}

pub fn command(fields: Fields, id: u16, data: &[u8]) -> Vec<u8> {
    Command {
        fields,
        request_id: RequestId(id),
        data,
    }
    .payload()
}

/// The right response to a request.
pub fn response(request: &Request, random: &mut Random) -> Vec<u8> {
    command(request.fields.swapped(), request.id.0, &some_data(random))
}

/// Mostly short, with the ends of what is allowed.
pub fn some_data(random: &mut Random) -> Vec<u8> {
    let length = random.one_of(&[0, 0, 1, 2, 5, 9, 40, 247, 248]);
    random.bytes(length)
}

/// Mostly small numbers, so that different commands often have equal fields.
pub fn some_fields(random: &mut Random) -> Fields {
    let most = random.one_of(&[1, 3, 255]);
    let mut field = || random.up_to(most) as u8;
    Fields {
        tc: field(),
        tid: field(),
        sid: field(),
        iid: field(),
        cid: field(),
    }
}
