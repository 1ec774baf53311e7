//! Submits with too much data, with three live, with a low reading, and with two of these at once.

use super::controller::{ack, some_fields};
use super::{accepted_r, first_clock};
use crate::scene::Scene;
use crate::Random;

pub fn refused(_: usize, random: &mut Random) -> Scene {
    const LENGTHS: [usize; 10] = [0, 0, 1, 247, 248, 248, 249, 249, 250, 4_096];
    let mut scene = Scene::opened(accepted_r(random));
    scene.clock = first_clock(random);
    while scene.has_room(4) {
        let clock = scene.clock;
        if random.one_in(5) {
            scene.clock = clock.saturating_sub(random.one_of(&[1, 1, u64::MAX]));
        }
        let length = random.one_of(&LENGTHS);
        scene.submit(some_fields(random), &random.bytes(length), random.one_in(4));
        scene.clock = clock;
        if random.one_in(3) {
            scene.poll();
        }
        if random.one_in(3) {
            scene.receive(&ack(scene.last_sent()));
        }
        scene.wait(random.one_of(&[0, 0, 0, 1, 1_000]));
    }
    scene
}
