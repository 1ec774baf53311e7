//! The captures that are stored as files. They are the same at every run, whatever the seed of the comparisons.

use crate::captures::{headers, nested};
use crate::sample::sample;
use crate::slices::{self, filled, KINDS};
use crate::Random;
use independent::examples::example_of_the_lister;
use independent::message::{Message, DATA_SEQ};

/// The capture of this name, if there is one.
pub fn capture(name: &str) -> Option<Vec<u8>> {
    match name {
        "document-01" => Some(example_of_the_lister()),
        "sample" => Some(sample()),
        "long" => Some(long()),
        _ => None,
    }
}

/// Every kind of damage, longer than a pipe holds, and at the end a message of the greatest LEN without its last byte.
pub fn long() -> Vec<u8> {
    let random = &mut Random::new(1);
    let damaged = filled(40_000, random, piece);
    let mut whole = |kind, len| Message::new(kind, 1, &random.bytes(len)).bytes();
    let limits = KINDS.map(|kind| [0, 1, 256, 257].map(|len| whole(kind, len)).concat());
    let overlapping = [headers::overlapping(random), headers::allowed(random)].concat();
    let nested = nested::written_over(random);
    let end = Message::new(DATA_SEQ, 1, &[0x00; 256]).bytes().repeat(2);
    let mut bytes = [damaged, limits.concat(), overlapping.concat(), nested.concat(), end].concat();
    bytes.pop();
    bytes
}

/// A message, damage or junk.
fn piece(random: &mut Random) -> Vec<u8> {
    match random.up_to(19) {
        0 => nested::layers(random),
        1 => nested::full(random),
        2 => slices::junk(random, 400),
        3 => slices::pairs(random, 400),
        _ => slices::mixture(random),
    }
}
