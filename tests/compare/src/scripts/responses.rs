//! Responses to requests that wait, are in flight or queued, each with one thing wrong before the right one comes.

use super::controller::{ack, command, data, response, some_data};
use super::{accepted_r, first_clock};
use crate::scene::Scene;
use crate::Random;
use independent::command::Fields;
use independent::ledger::request::Request;

/// The most calls that three requests need.
const ROUND: usize = 60;

/// Eight things that can be wrong.
const WRONGS: usize = 8;

/// What is wrong first and which request is answered first go with the number.
pub fn wrong_and_right(number: usize, random: &mut Random) -> Scene {
    let mut scene = Scene::opened(accepted_r(random));
    scene.clock = first_clock(random);
    let mut turn = number;
    while scene.has_room(ROUND) {
        waiting_in_flight_and_queued(&mut scene, random);
        answer(&mut scene, turn, random);
        over(&mut scene, random);
        turn += 1;
    }
    scene
}

/// Three requests: the first waits or has ended, the second is in flight, the third queued.
fn waiting_in_flight_and_queued(scene: &mut Scene, random: &mut Random) {
    let different = Fields {
        tc: 3,
        tid: 1,
        sid: 2,
        iid: 4,
        cid: 5,
    };
    let equal = Fields { sid: 1, ..different };
    for _ in 0..3 {
        let fields = random.one_of(&[different, different, equal]);
        scene.submit(fields, &some_data(random), !random.one_in(4));
    }
    scene.poll();
    scene.receive(&ack(scene.last_sent()));
    scene.poll();
}

/// Wrong responses to one of the live requests, the right one, and that again.
fn answer(scene: &mut Scene, turn: usize, random: &mut Random) {
    let live = &scene.ledger.live;
    let asked = live[turn / WRONGS % live.len()].clone();
    for wrong in [turn, turn + 1, random.up_to(WRONGS - 1)] {
        let wrong = wrong_response(&asked, wrong % WRONGS, random);
        let bytes = data(scene, &wrong, random);
        scene.receive(&bytes);
    }
    let right = response(&asked, random);
    for _ in 0..2 {
        let bytes = data(scene, &right, random);
        scene.receive(&bytes);
    }
    // stray where the response has ended the request in flight
    scene.receive(&ack(scene.last_sent()));
    let after = data(scene, &right, random);
    scene.receive(&after);
}

/// The response to a request with one field different, or TID and SID not swapped.
fn wrong_response(asked: &Request, wrong: usize, random: &mut Random) -> Vec<u8> {
    let (mut fields, mut id) = (asked.fields.swapped(), asked.id.0);
    let other = 1 << random.up_to(7);
    match wrong {
        0 => fields.tc ^= other,
        1 => fields.tid ^= other,
        2 => fields.sid ^= other,
        3 => fields.iid ^= other,
        4 => fields.cid ^= other,
        5 => id = id.wrapping_add(random.one_of(&[1, 2, 256, 65_535])),
        6 => id = id.swap_bytes(),
        _ => fields = fields.swapped(),
    }
    command(fields, id, &some_data(random))
}

/// The others end, some with their response.
fn over(scene: &mut Scene, random: &mut Random) {
    for _ in 0..12 {
        let Some(oldest) = scene.ledger.live.first().cloned() else {
            return;
        };
        scene.poll();
        scene.receive(&ack(scene.last_sent()));
        if random.one_in(3) {
            let bytes = data(scene, &response(&oldest, random), random);
            scene.receive(&bytes);
        }
        scene.wait(random.one_of(&[0, 1_000, 2_999, 3_000]));
    }
}
