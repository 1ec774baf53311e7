//! Readings that stand still, jump, go back and reach both ends of 64 bits.

use super::accepted_r;
use super::controller::{ack, data, nak, response, some_data, some_fields};
use crate::scene::Scene;
use crate::Random;

/// The first reading goes with the number.
pub fn any(number: usize, random: &mut Random) -> Scene {
    const FIRST: [u64; 8] = [
        0,
        1,
        1 << 32,
        u64::MAX,
        u64::MAX - 1,
        u64::MAX - 1_000,
        u64::MAX - 3_000,
        u64::MAX - 12_000,
    ];
    let mut scene = Scene::opened(accepted_r(random));
    let mut clock = FIRST[number % FIRST.len()];
    while scene.has_room(3) {
        if random.one_in(5) {
            scene.clock = back(clock, random);
            call(&mut scene, random);
        }
        scene.clock = clock;
        call(&mut scene, random);
        clock = clock.saturating_add(on(random));
    }
    scene
}

/// A reading below this one, if there is one.
fn back(clock: u64, random: &mut Random) -> u64 {
    let any = random.number();
    random.one_of(&[
        0,
        clock.saturating_sub(1),
        clock.saturating_sub(1),
        clock.saturating_sub(3_000),
        clock / 2,
        any.min(clock),
    ])
}

/// How far the clock goes on.
fn on(random: &mut Random) -> u64 {
    if random.one_in(100) {
        return random.one_of(&[1 << 16, 1 << 32, 1 << 63, u64::MAX]);
    }
    random.one_of(&[
        0, 0, 0, 0, 0, 1, 2, 500, 998, 999, 1_000, 1_001, 2_000, 2_999, 3_000, 3_001,
    ])
}

fn call(scene: &mut Scene, random: &mut Random) {
    let some = |scene: &Scene, random: &mut Random| {
        let place = random.up_to(scene.ledger.live.len().saturating_sub(1));
        scene.ledger.live.get(place).cloned()
    };
    match random.up_to(9) {
        0 | 1 => scene.submit(some_fields(random), &some_data(random), !random.one_in(3)),
        2 => drop(scene.receive(&ack(scene.last_sent()))),
        3 => drop(scene.receive(&nak(random))),
        4 => {
            if let Some(request) = some(scene, random) {
                let bytes = data(scene, &response(&request, random), random);
                scene.receive(&bytes);
            }
        }
        _ => drop(scene.poll()),
    }
}
