//! Captures longer than a pipe holds.

use super::nested::{full, layers};
use crate::slices::{self, filled};
use crate::Random;
use independent::message::SYN;

/// Each kind of content in captures of 64 KiB to 300 KiB.
pub fn long(random: &mut Random) -> Vec<Vec<u8>> {
    let contents: [fn(&mut Random) -> Vec<u8>; 8] = [
        slices::message,
        slices::message,
        slices::mixture,
        slices::mixture,
        |random| [layers(random), full(random)].concat(),
        |random| slices::junk(random, 1_000),
        |random| slices::pairs(random, 1_000),
        |random| vec![random.one_of(&SYN)],
    ];
    let mut capture = |content: fn(&mut Random) -> Vec<u8>| {
        let length = (64 << 10) + random.up_to(236 << 10);
        filled(length, random, content)
    };
    let mut captures: Vec<_> = contents.into_iter().map(&mut capture).collect();
    captures.push(vec![SYN[0]; 100_000]);
    captures
}
