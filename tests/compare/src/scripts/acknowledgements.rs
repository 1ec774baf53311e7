//! Frames whose ACK is lost, late, or for another SEQ, and responses that do not come.

use super::controller::{ack, data, response, some_data, some_fields};
use super::{accepted_r, first_clock};
use crate::scene::Scene;
use crate::Random;
use independent::ledger::request::Request;

/// The most calls from a submit to its ending.
const ROUND: usize = 45;

/// The transmission that is acknowledged is the first, second, third or none in turn, a response wanted or not.
pub fn lost(number: usize, random: &mut Random) -> Scene {
    let mut scene = Scene::opened(accepted_r(random));
    scene.clock = first_clock(random);
    let mut turn = number;
    while scene.has_room(ROUND) {
        scene.submit(some_fields(random), &some_data(random), turn / 4 % 2 == 0);
        if random.one_in(3) {
            scene.submit(some_fields(random), &[], !random.one_in(3));
        }
        transmissions(&mut scene, turn % 4, random);
        no_response(&mut scene, random);
        turn += 1;
    }
    scene
}

/// Up to three of the oldest request's frame, of which one is acknowledged unless that is none of them.
fn transmissions(scene: &mut Scene, acknowledged: usize, random: &mut Random) {
    for transmission in 1..=3 {
        scene.poll();
        strays(scene, random);
        if transmission == acknowledged {
            scene.wait(random.one_of(&[0, 1, 999, 1_000, 5_000]));
            scene.receive(&ack(scene.last_sent()));
            return;
        }
        around(scene, 1_000, random);
    }
    scene.poll();
    // too late: it was the last frame's, and perhaps the next one is in flight
    let late = scene.last_sent();
    scene.receive(&ack(late));
    scene.poll();
    scene.receive(&ack(late));
}

/// ACKs for the frame before and for the one to come.
fn strays(scene: &mut Scene, random: &mut Random) {
    let last = scene.last_sent();
    for seq in [last.wrapping_sub(1), last.wrapping_add(1), random.byte()] {
        if seq != last && random.one_in(3) {
            scene.receive(&ack(seq));
        }
    }
}

/// A poll a millisecond before the time is over, and then on to its end or past it.
fn around(scene: &mut Scene, time: u64, random: &mut Random) {
    if random.one_in(2) {
        scene.wait(time - 1);
        scene.poll();
        scene.wait(1);
    } else {
        scene.wait(time + random.one_of(&[0, 0, 1, 700]));
    }
}

/// All that are live end without a response; now and then it comes a little too late.
fn no_response(scene: &mut Scene, random: &mut Random) {
    for _ in 0..4 {
        let oldest: Option<Request> = scene.ledger.live.first().cloned();
        let Some(oldest) = oldest else {
            return;
        };
        around(scene, 3_000, random);
        scene.poll();
        if random.one_in(2) {
            let late = data(scene, &response(&oldest, random), random);
            scene.receive(&late);
        }
        scene.receive(&ack(scene.last_sent()));
    }
}
