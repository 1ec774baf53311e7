//! Calls of all kinds, chosen by what the ledger holds.

use crate::scene::Scene;
use crate::Random;
use independent::ledger::lists::List;
use independent::session::filled;

/// Every other script keeps document 01's rule for the clock.
pub fn any(number: usize, random: &mut Random) -> Scene {
    let mut scene = Scene::opened(List::any_r(random));
    let mut list = List::new(random.clone(), number % 2 == 0);
    while scene.has_room(1) {
        let call = filled(list.next_call(&scene.ledger));
        let outcome = scene.call(call.clone());
        list.observe(&call, &outcome);
    }
    scene
}
