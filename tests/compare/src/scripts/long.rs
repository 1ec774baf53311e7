//! Scripts in which so many requests come and go that the IDs begin again behind 65535.

use super::controller::ack;
use crate::scene::Scene;
use independent::command::Fields;

const FIELDS: Fields = Fields {
    tc: 3,
    tid: 1,
    sid: 2,
    iid: 4,
    cid: 5,
};

/// R, and how many requests wait from the beginning to the end, so that their IDs are passed over.
pub const KINDS: [(u64, usize); 3] = [(255, 0), (255, 2), (38, 1)];

/// The clock stands still, each request is acknowledged at once, and a few come after 65535.
pub fn all_ids(r: u64, waiting: usize) -> Scene {
    let mut scene = Scene::opened(r);
    for _ in 0..waiting {
        request(&mut scene, true);
    }
    for _ in 0..65_535 - r as usize + 10 {
        request(&mut scene, false);
    }
    scene
}

fn request(scene: &mut Scene, wanted: bool) {
    scene.submit(FIELDS, &[], wanted);
    scene.poll();
    scene.receive(&ack(scene.last_sent()));
}
