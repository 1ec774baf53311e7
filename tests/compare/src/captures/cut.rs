//! Captures that end somewhere inside a message or at SYN.

use crate::damage::{damage, fields};
use crate::slices::{self, filled, samples};
use crate::Random;
use independent::examples::EXAMPLE_3;
use independent::message::{Message, DATA_NSQ, DATA_SEQ, SYN};

/// An ACK, then a message of the greatest LEN cut at every place; the same with its payload damaged.
pub fn longest(random: &mut Random) -> Vec<Vec<u8>> {
    let mut captures = Vec::new();
    for (kind, damaged) in [(DATA_SEQ, false), (DATA_NSQ, true)] {
        let mut longest = Message::new(kind, random.byte(), &random.bytes(256)).bytes();
        if damaged {
            let [.., payload, _] = fields(&longest);
            damage(&mut longest, payload, random);
        }
        captures.extend((0..=longest.len()).map(|end| [&EXAMPLE_3, &longest[..end]].concat()));
    }
    captures
}

/// Messages, damage and junk behind one another, cut at any place.
pub fn mixtures(random: &mut Random) -> Vec<Vec<u8>> {
    let mut capture = || {
        let length = random.up_to(600);
        filled(length, random, slices::mixture)
    };
    (0..500).map(|_| capture()).collect()
}

/// Each sample, whole or without its last byte, then a part of SYN or a little more than SYN.
pub fn at_syn(random: &mut Random) -> Vec<Vec<u8>> {
    let [first, second] = SYN;
    let ends = [
        &[first][..],
        &[first, first],
        &SYN,
        &[first, second, first],
        &[second, first],
    ];
    let mut captures = Vec::new();
    for sample in samples(random) {
        let (_, all_but_last) = sample.split_last().expect("a message has bytes");
        for end in ends {
            captures.push([&sample, end].concat());
            captures.push([all_but_last, end].concat());
        }
    }
    captures
}

/// Lengths at which a buffer of the program may be full.
pub fn around_powers_of_two(random: &mut Random) -> Vec<Vec<u8>> {
    let lengths = (6..=17).flat_map(|power| [(1 << power) - 1, 1 << power, (1 << power) + 1]);
    lengths.map(|length| filled(length, random, slices::message)).collect()
}
