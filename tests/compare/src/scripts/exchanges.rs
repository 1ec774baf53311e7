//! Exchanges in which nothing is lost: each request is sent, acknowledged and, where one is wanted, answered.

use super::controller::{ack, data, response, some_data, some_fields};
use super::{accepted_r, first_clock};
use crate::scene::Scene;
use crate::Random;
use independent::ledger::request::{Request, State};

/// The most calls that three requests need.
const ROUND: usize = 30;

pub fn whole(_: usize, random: &mut Random) -> Scene {
    let mut scene = Scene::opened(accepted_r(random));
    scene.clock = first_clock(random);
    while scene.has_room(ROUND) {
        for _ in 0..=random.up_to(2) {
            scene.submit(some_fields(random), &some_data(random), !random.one_in(3));
        }
        while !scene.ledger.live.is_empty() {
            scene.poll();
            scene.wait(random.up_to(100) as u64);
            answer(&mut scene, random);
        }
        scene.poll();
        scene.wait(random.up_to(5_000) as u64);
    }
    scene
}

/// The controller acknowledges the frame and answers what waits: in this order, in one piece, or the response first.
fn answer(scene: &mut Scene, random: &mut Random) {
    let acknowledgement = ack(scene.last_sent());
    let sent = scene.ledger.live.iter().find(|request| !request.is_queued());
    let Some(request) = sent.cloned() else {
        return;
    };
    if !request.wanted {
        scene.receive(&acknowledgement);
        return;
    }
    let answer = data(scene, &response(&request, random), random);
    match random.up_to(3) {
        0 => scene.hand_in(&[acknowledgement, answer].concat()),
        1 => scene.hand_in(&[answer, acknowledgement].concat()),
        2 if !random.one_in(3) => {
            scene.receive(&acknowledgement);
            // the next requests go out while this one waits
            while scene.ledger.live.iter().any(Request::is_queued) {
                scene.poll();
                scene.receive(&ack(scene.last_sent()));
            }
            answer_all(scene, random);
        }
        _ => {
            scene.receive(&acknowledgement);
            scene.poll();
            scene.receive(&answer);
        }
    }
}

/// Responses to all that wait, the newest first.
fn answer_all(scene: &mut Scene, random: &mut Random) {
    let waits = |request: &&Request| matches!(request.state, State::Waiting { .. });
    while let Some(request) = scene.ledger.live.iter().rev().find(waits).cloned() {
        let answer = data(scene, &response(&request, random), random);
        scene.receive(&answer);
    }
}
