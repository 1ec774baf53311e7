//! Captures without a message, or with one behind a few bytes of junk.

use crate::{slices, Random};
use independent::examples::EXAMPLE_3;
use independent::message::SYN;

pub fn single_bytes() -> Vec<Vec<u8>> {
    let single = (0..=255).map(|byte| vec![byte]);
    [vec![]].into_iter().chain(single).collect()
}

/// Every string of AA, 55 and 00 up to length 4, alone and before an ACK.
pub fn strings() -> Vec<Vec<u8>> {
    let mut captures = Vec::new();
    for length in 1..=4 {
        for number in 0..3_usize.pow(length) {
            let digit = |place| number / 3_usize.pow(place) % 3;
            let string: Vec<u8> = (0..length).map(|place| [SYN[0], SYN[1], 0x00][digit(place)]).collect();
            captures.push([&string[..], &EXAMPLE_3].concat());
            captures.push(string);
        }
    }
    captures
}

/// AA, 55, 00 or SYN again and again, up to lengths around what a line holds.
pub fn repeated() -> Vec<Vec<u8>> {
    let mut captures = Vec::new();
    for length in [2, 7, 8, 9, 10, 64, 255, 256, 264, 265, 266, 267, 530, 5_000] {
        captures.extend([SYN[0], SYN[1], 0x00].map(|byte| vec![byte; length]));
        captures.push(SYN.into_iter().cycle().take(length).collect());
    }
    captures
}

pub fn without_syn(random: &mut Random) -> Vec<Vec<u8>> {
    (0..80).map(|_| slices::junk(random, 1_000)).collect()
}

pub fn rich_in_syn(random: &mut Random) -> Vec<Vec<u8>> {
    (0..120).map(|_| slices::pairs(random, 1_000)).collect()
}
