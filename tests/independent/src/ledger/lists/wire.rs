//! The bytes that are on their way to the ledger: whole messages and what a noisy line makes of them.

use super::messages;
use crate::ledger::Ledger;
use crate::random::Random;

#[derive(Clone, Debug, Default)]
pub struct Wire {
    coming: Vec<u8>,
}

impl Wire {
    /// What the next receive is handed: nothing, all that is coming, or a part of it.
    pub fn piece(&mut self, ledger: &Ledger, random: &mut Random) -> Vec<u8> {
        if random.one_in(15) {
            return Vec::new();
        }
        if self.coming.is_empty() {
            self.coming = arriving(ledger, random);
        }
        let mut length = self.coming.len();
        if random.one_in(6) {
            length = random.up_to(length);
        }
        self.coming[..length].to_vec()
    }

    /// The untaken rest is handed in again, and now and then lost.
    pub fn taken(&mut self, count: usize, random: &mut Random) {
        self.coming.drain(..count.min(self.coming.len()));
        if random.one_in(20) {
            self.coming.clear();
        }
    }
}

fn arriving(ledger: &Ledger, random: &mut Random) -> Vec<u8> {
    match random.up_to(19) {
        0 => noise(random),
        1 => [noise(random), message(ledger, random)].concat(),
        2..=4 => [message(ledger, random), message(ledger, random)].concat(),
        _ => message(ledger, random),
    }
}

/// One message, sometimes damaged or cut.
fn message(ledger: &Ledger, random: &mut Random) -> Vec<u8> {
    let mut bytes = messages::any(ledger, random);
    match random.up_to(19) {
        0 | 1 => {
            let at = random.up_to(bytes.len() - 1);
            bytes[at] ^= 1 << random.up_to(7);
        }
        2 => bytes.truncate(random.up_to(bytes.len() - 1)),
        _ => {}
    }
    bytes
}

/// A few bytes, AA and 55 among them.
fn noise(random: &mut Random) -> Vec<u8> {
    let length = random.up_to(12);
    (0..length)
        .map(|_| {
            let byte = random.byte();
            random.one_of(&[0xAA, 0x55, 0x40, 0x00, byte])
        })
        .collect()
}
