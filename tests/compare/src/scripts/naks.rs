//! NAKs while nothing is live, and for a request that is queued, sent once, twice, three times, waiting or ended.

use super::controller::{ack, nak, some_data, some_fields};
use super::{accepted_r, first_clock};
use crate::scene::Scene;
use crate::Random;

/// The stages of a request, in their order.
const STAGES: [fn(&mut Scene, &mut Random); 7] = [nothing, queued, sent, again, again, acknowledged, over];

/// The most calls from the first stage to the last.
const ROUND: usize = 45;

/// The stage with the NAKs goes with the number; now and then there is one at the others too.
pub fn at_every_stage(number: usize, random: &mut Random) -> Scene {
    let mut scene = Scene::opened(accepted_r(random));
    scene.clock = first_clock(random);
    let mut chosen = number;
    while scene.has_room(ROUND) {
        for (at, stage) in STAGES.iter().enumerate() {
            stage(&mut scene, random);
            if at == chosen % STAGES.len() {
                for _ in 0..=random.up_to(1) {
                    naks(&mut scene, random);
                }
            } else if random.one_in(12) {
                naks(&mut scene, random);
            }
        }
        chosen += 1;
    }
    scene
}

/// One or two, the second of which changes nothing, and mostly a poll.
fn naks(scene: &mut Scene, random: &mut Random) {
    for _ in 0..=random.up_to(1) {
        let mut bytes = nak(random);
        if random.one_in(10) {
            bytes[2] ^= 1 << random.up_to(7);
        }
        scene.receive(&bytes);
    }
    if !random.one_in(4) {
        scene.poll();
    }
}

fn nothing(scene: &mut Scene, _: &mut Random) {
    scene.poll();
}

fn queued(scene: &mut Scene, random: &mut Random) {
    for _ in 0..=random.up_to(1) {
        scene.submit(some_fields(random), &some_data(random), random.one_in(2));
    }
}

fn sent(scene: &mut Scene, random: &mut Random) {
    scene.poll();
    scene.wait(random.one_of(&[0, 1, 500, 999]));
}

/// Sent again, as its time is over or it was marked.
fn again(scene: &mut Scene, random: &mut Random) {
    scene.wait(random.one_of(&[0, 1, 1_000]));
    scene.poll();
}

fn acknowledged(scene: &mut Scene, _: &mut Random) {
    scene.receive(&ack(scene.last_sent()));
}

/// Whatever is live ends.
fn over(scene: &mut Scene, _: &mut Random) {
    for _ in 0..5 {
        if scene.ledger.live.is_empty() {
            return;
        }
        scene.wait(3_000);
        scene.poll();
        scene.receive(&ack(scene.last_sent()));
    }
}
