//! Lent buffers of every length around the least ones, for calls that would change them.

use super::controller::{ack, command, data, some_data, some_fields};
use super::{accepted_r, first_clock};
use crate::scene::Scene;
use crate::Random;

const REPLY: [usize; 8] = [0, 1, 8, 9, 10, 11, 64, 4_096];
const DATA: [usize; 8] = [0, 1, 9, 247, 248, 249, 1_000, 4_096];
const OUTPUT: [usize; 8] = [0, 10, 264, 265, 266, 267, 1_000, 4_096];

/// The first lengths go with the number, so that every pair of a reply's and a data buffer's comes.
pub fn lengths(number: usize, random: &mut Random) -> Scene {
    let mut scene = Scene::opened(accepted_r(random));
    scene.clock = first_clock(random);
    let mut turn = number;
    while scene.has_room(6) {
        scene.reply = REPLY[turn % 8];
        scene.data = DATA[turn / 8 % 8];
        scene.output = OUTPUT[random.up_to(7)];
        turn += 1 + 64 * random.up_to(1);
        one_call(&mut scene, random);
    }
    scene
}

/// Now and then with a reading that is too low as well: 2 comes before 6.
fn one_call(scene: &mut Scene, random: &mut Random) {
    let clock = scene.clock;
    if random.one_in(10) {
        scene.clock = clock.saturating_sub(1);
    }
    match random.up_to(9) {
        0 | 1 => scene.submit(some_fields(random), &some_data(random), random.one_in(2)),
        2..=4 => drop(scene.poll()),
        5 => drop(scene.receive(&ack(scene.last_sent()))),
        _ => {
            // an event, where there are events
            let payload = command(some_fields(random), 1, &some_data(random));
            let mut bytes = data(scene, &payload, random);
            if random.one_in(5) {
                let at = random.up_to(bytes.len() - 1);
                bytes[at] ^= 0x10;
            }
            scene.receive(&bytes);
        }
    }
    scene.clock = clock.saturating_add(random.one_of(&[0, 0, 1, 1_000]));
}
