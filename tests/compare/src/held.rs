//! Generated held bytes, not only such as a line would hold, new bytes behind them, and bytes for the rest of the array.

use crate::captures::nested;
use crate::slices::{self, filled, samples};
use crate::Random;
use binding::line::{Line, MOST_HELD};
use independent::message::{header, Message, DATA_NSQ, DATA_SEQ, SYN};

/// Bytes of the most new ones.
const MOST_NEW: usize = 300;

/// What the bytes are made of, again and again.
pub const CONTENTS: [fn(&mut Random) -> Vec<u8>; 11] = [
    |random| random.bytes(8),
    |random| slices::junk(random, 300),
    |random| slices::pairs(random, 300),
    |random| vec![random.one_of(&SYN)],
    slices::message,
    slices::mixture,
    |random| samples(random).concat(),
    nested::layers,
    nested::full,
    |random| Message::new(DATA_SEQ, random.byte(), &random.bytes(256)).bytes(),
    |random| header(DATA_NSQ, 256, random.byte()),
];

/// So many held bytes of this content, from its beginning or from within it, and new bytes.
pub fn held_and_new(count: usize, content: fn(&mut Random) -> Vec<u8>, random: &mut Random) -> (Vec<u8>, Vec<u8>) {
    let skipped = if random.up_to(1) == 0 { 0 } else { random.up_to(300) };
    let bytes = filled(skipped + count + MOST_NEW, random, content).split_off(skipped);
    let (held, behind) = bytes.split_at(count);
    let mut held = held.to_vec();
    place_syn(&mut held, random);
    (held, new(behind, random))
}

/// None, one, some or all of the bytes that stand behind the held ones, or others.
fn new(behind: &[u8], random: &mut Random) -> Vec<u8> {
    let length = match random.up_to(4) {
        0 => 0,
        1 => 1,
        2 => random.up_to(MOST_NEW),
        3 => MOST_NEW,
        _ => {
            let length = random.up_to(MOST_NEW);
            return filled(length, random, slices::mixture);
        }
    };
    behind[..length].to_vec()
}

/// One time in four each: SYN at any place, a lone AA at the end.
fn place_syn(held: &mut [u8], random: &mut Random) {
    let kind = random.up_to(3);
    if kind == 0 && held.len() >= SYN.len() {
        let place = random.up_to(held.len() - SYN.len());
        held[place..place + SYN.len()].copy_from_slice(&SYN);
    } else if kind == 1 {
        if let Some(last) = held.last_mut() {
            *last = SYN[0];
        }
    }
}

/// Bytes for the part of a line's array that holds nothing. They have messages and SYN in them, so that they can be taken
/// for held ones.
pub struct Rest {
    random: Random,
    pool: Vec<u8>,
}

impl Rest {
    pub fn new(random: &mut Random) -> Self {
        let pool = filled(1 << 16, random, slices::mixture);
        let random = Random::new(random.number());
        Rest { random, pool }
    }

    pub fn fill(&mut self, line: &mut Line) {
        let start = self.random.up_to(self.pool.len() - MOST_HELD);
        let rest = &mut line.array[line.count..];
        rest.copy_from_slice(&self.pool[start..start + rest.len()]);
    }
}
