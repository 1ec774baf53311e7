//! Generated scripts for the program `session`, in kinds. Each script comes from the seed, its kind and its number.

mod acknowledgements;
mod buffers;
mod calls;
mod clocks;
mod controller;
mod events;
mod exchanges;
pub mod long;
mod naks;
mod pieces;
mod repeats;
mod responses;
mod submits;

use crate::scene::Scene;
use crate::Random;

/// Scripts that have something in common. The number lets a kind go through what it varies.
pub struct Kind {
    pub what: &'static str,
    pub count: usize,
    pub make: fn(usize, &mut Random) -> Scene,
}

const fn kind(what: &'static str, count: usize, make: fn(usize, &mut Random) -> Scene) -> Kind {
    Kind { what, count, make }
}

/// More than 3,000 scripts.
pub const KINDS: [Kind; 11] = [
    kind("calls chosen by what the ledger holds", 1_600, calls::any),
    kind("whole exchanges", 150, exchanges::whole),
    kind(
        "ACKs that are lost, late or for another frame",
        240,
        acknowledgements::lost,
    ),
    kind("NAKs at every stage", 150, naks::at_every_stage),
    kind("repeats", 100, repeats::repeats),
    kind(
        "responses, each field wrong in its turn",
        240,
        responses::wrong_and_right,
    ),
    kind("events and the IDs beside theirs", 100, events::beside_reserved),
    kind("clocks that stand, jump and go back", 160, clocks::any),
    kind("buffers too short and longer", 100, buffers::lengths),
    kind("submits to be refused", 60, submits::refused),
    kind("bytes in pieces, damaged and cut", 300, pieces::handed_in),
];

/// R as open accepts it, its ends among them.
fn accepted_r(random: &mut Random) -> u64 {
    let any = u64::from(random.byte());
    random.one_of(&[0, 1, 38, 38, 254, 255, any])
}

/// The reading of a script's first call.
fn first_clock(random: &mut Random) -> u64 {
    let any = random.number() >> 1;
    random.one_of(&[0, 0, 1, 5_000, 1 << 32, any, u64::MAX - 1_000_000])
}
