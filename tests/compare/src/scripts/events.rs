//! Commands with the IDs of events, 1 to R, and with those beside them.

use super::controller::{ack, command, data, some_data, some_fields};
use super::first_clock;
use crate::scene::Scene;
use crate::Random;

/// R goes with the number: both its ends, small ones and those that open refuses, which leave R = 0.
pub fn beside_reserved(number: usize, random: &mut Random) -> Scene {
    const RS: [u64; 10] = [0, 1, 2, 38, 127, 254, 255, 256, 65_536, u64::MAX];
    let mut scene = Scene::opened(RS[number % RS.len()]);
    scene.clock = first_clock(random);
    let r = scene.ledger.r as u16;
    while scene.has_room(6) {
        match random.up_to(9) {
            0 => scene.submit(some_fields(random), &[], random.one_in(2)),
            1 => drop(scene.poll()),
            2 => drop(scene.receive(&ack(scene.last_sent()))),
            _ => {
                let ids = [0, 1, r.saturating_sub(1), r, r + 1, 255, 256, r << 8, 256 + r, 65_535];
                let payload = command(some_fields(random), random.one_of(&ids), &some_data(random));
                let bytes = data(&scene, &payload, random);
                scene.receive(&bytes);
            }
        }
        scene.wait(random.one_of(&[0, 0, 0, 1, 999]));
    }
    scene
}
