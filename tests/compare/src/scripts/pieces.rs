//! Bytes from the line in pieces, each handed in again until *more*: messages, damage, junk, and parts of them.

use super::controller::{ack, data, response, some_fields};
use super::{accepted_r, first_clock};
use crate::scene::Scene;
use crate::slices::{any_header, damaged, junk, message, mixture, pairs, syn_inside};
use crate::Random;
use independent::message::{Message, DATA_SEQ};

/// The longest message cut where the number says, then messages of all kinds with requests between them.
pub fn handed_in(number: usize, random: &mut Random) -> Scene {
    let mut scene = Scene::opened(accepted_r(random));
    scene.clock = first_clock(random);
    longest(&mut scene, number, random);
    while scene.has_room(1) {
        match random.up_to(9) {
            0 => scene.submit(some_fields(random), &[], random.one_in(2)),
            1 => drop(scene.poll()),
            _ => arriving(&mut scene, random),
        }
        scene.wait(random.one_of(&[0, 0, 0, 1, 500]));
    }
    scene
}

/// A message of the greatest LEN in two pieces, so that up to 265 bytes are held. Some are damaged.
fn longest(scene: &mut Scene, number: usize, random: &mut Random) {
    let mut bytes = Message::new(DATA_SEQ, random.byte(), &[&[0x80][..], &random.bytes(255)].concat()).bytes();
    if random.one_in(4) {
        bytes[8 + random.up_to(257)] ^= 1;
    }
    let (piece, rest) = bytes.split_at(number % bytes.len());
    scene.hand_in(piece);
    scene.hand_in(rest);
}

/// Some messages or what the line made of them, in one piece or in a few.
fn arriving(scene: &mut Scene, random: &mut Random) {
    let mut bytes = Vec::new();
    for _ in 0..=random.up_to(2) {
        bytes.extend(one(scene, random));
    }
    let most = random.one_of(&[3, 20, 4_096, 4_096]);
    for piece in bytes.chunks(most) {
        scene.hand_in(piece);
    }
}

fn one(scene: &Scene, random: &mut Random) -> Vec<u8> {
    match (random.up_to(11), scene.ledger.live.first()) {
        (0, _) => mixture(random),
        (1, _) => damaged(random, false),
        (2, _) => damaged(random, true),
        (3, _) => syn_inside(random),
        (4, _) => any_header(random),
        (5, _) => junk(random, 30),
        (6, _) => pairs(random, 30),
        (7 | 8, Some(request)) => data(scene, &response(request, random), random),
        (9, _) => {
            let mut cut = message(random);
            cut.truncate(random.up_to(cut.len()));
            cut
        }
        (10, _) => message(random),
        _ => ack(scene.last_sent()),
    }
}
