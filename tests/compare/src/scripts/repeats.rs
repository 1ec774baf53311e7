//! Data frames whose SEQ is the controller's last one or is not.

use super::controller::{ack, command, response, some_data, some_fields};
use super::{accepted_r, first_clock};
use crate::scene::Scene;
use crate::Random;
use independent::ids::Seq;
use independent::message::{Message, DATA_NSQ, DATA_SEQ};

/// The first frame has the SEQ of the script's number, so that 0 and 255 are among them.
pub fn repeats(number: usize, random: &mut Random) -> Scene {
    let mut scene = Scene::opened(accepted_r(random));
    scene.clock = first_clock(random);
    let mut seq = (number as u8).wrapping_mul(5);
    while scene.has_room(8) {
        if random.one_in(4) {
            scene.submit(some_fields(random), &[], true);
            scene.poll();
            scene.receive(&ack(scene.last_sent()));
        }
        let payload = payload(&scene, random);
        let kind = if random.one_in(5) { DATA_NSQ } else { DATA_SEQ };
        say(&mut scene, &Message::new(kind, seq, &payload).bytes(), random);
        let Seq(last) = scene.ledger.last_seq.unwrap_or(Seq(seq));
        seq = random.one_of(&[
            last,
            last,
            last.wrapping_add(1),
            last.wrapping_add(1),
            last.wrapping_sub(1),
            0,
        ]);
    }
    scene
}

/// The same bytes again as long as the ACK to them is lost. A call that is refused has not seen them.
fn say(scene: &mut Scene, bytes: &[u8], random: &mut Random) {
    if random.one_in(5) {
        scene.reply = 9;
        scene.receive(bytes);
        scene.reply = 10;
    }
    if random.one_in(8) {
        let mut damaged = bytes.to_vec();
        damaged[bytes.len() - 1] ^= 1;
        scene.hand_in(&damaged);
    }
    for _ in 0..=random.up_to(2) {
        if scene.has_room(1) {
            scene.receive(bytes);
        }
    }
}

/// An event, a response, an unmatched command or none.
fn payload(scene: &Scene, random: &mut Random) -> Vec<u8> {
    match (random.up_to(3), scene.ledger.live.first()) {
        (0, _) => vec![0x80; 1 + random.up_to(6)],
        (1 | 2, Some(request)) => response(request, random),
        _ => {
            let r = scene.ledger.r as u16;
            let id = random.one_of(&[0, 1, r, r + 1]);
            command(some_fields(random), id, &some_data(random))
        }
    }
}
