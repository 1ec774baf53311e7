//! The writer that C programs call, beside the independent one: its answer, and the whole buffer afterwards.

use compare::slices::KINDS;
use compare::writer::{places, Tally};
use compare::Random;
use independent::examples::MESSAGES;
use independent::message::Message;

/// More random bytes than any buffer or payload here has.
const POOL: usize = 200_000;

/// So many bytes from somewhere in the pool.
fn part<'a>(pool: &'a [u8], length: usize, random: &mut Random) -> &'a [u8] {
    let start = random.up_to(pool.len() - length);
    &pool[start..start + length]
}

#[test]
fn examples_3_to_6() {
    for (message, bytes) in MESSAGES {
        let mut buffer = [0x77; 40];
        let answer = binding::write(&mut buffer, 5, message.kind, message.seq, message.payload);
        assert_eq!(answer, bytes.len());
        assert_eq!(buffer[..5], [0x77; 5]);
        assert_eq!(buffer[5..5 + bytes.len()], *bytes);
        assert!(buffer[5 + bytes.len()..].iter().all(|&byte| byte == 0x77));
    }
}

#[test]
fn the_four_types_with_every_len_to_300() {
    let mut random = Random::seeded("writer, the four TYPEs");
    let pool = random.bytes(POOL);
    let mut tally = Tally::default();
    for kind in KINDS {
        for len in 0..=300 {
            for seq in [0, 1 + random.up_to(254) as u8] {
                let message = Message::new(kind, seq, part(&pool, len, &mut random));
                for size in [10 + len, 9 + len, random.up_to(400)] {
                    for place in places(size, len, &mut random) {
                        tally.write(part(&pool, size, &mut random), place, message);
                    }
                }
            }
        }
    }
    tally.report("the four TYPEs with every LEN 0 to 300", [5_000, 20_000, 40_000]);
}

#[test]
fn every_type() {
    // the last ones would be allowed LENs in 16 bits
    const LENS: [usize; 18] = [
        0, 1, 2, 8, 100, 255, 256, 257, 258, 300, 512, 65_535, 65_536, 65_537, 65_544, 65_792, 65_793, 70_000,
    ];
    let mut random = Random::seeded("writer, every TYPE");
    let pool = random.bytes(POOL);
    let mut tally = Tally::default();
    for kind in 0..=255 {
        for len in LENS {
            for seq in [0, 1, 255] {
                let message = Message::new(kind, seq, part(&pool, len, &mut random));
                tally.write(part(&pool, len + 30, &mut random), 10, message);
                tally.write(part(&pool, 8, &mut random), 0, message);
                tally.write(&[], usize::MAX - random.up_to(20), message);
            }
        }
    }
    tally.report("every TYPE with LEN to 70,000", [40, 80, 40_000]);
}

#[test]
fn generated_calls() {
    const CALLS: usize = 100_000;
    let mut random = Random::seeded("writer, generated calls");
    let pool = random.bytes(POOL);
    let mut tally = Tally::default();
    for _ in 0..CALLS {
        let kind = if random.up_to(9) == 0 {
            random.byte()
        } else {
            random.one_of(&KINDS)
        };
        let longest = random.one_of(&[0, 3, 30, 300]);
        let len = random.up_to(longest);
        let seq = if random.up_to(1) == 0 { 0 } else { random.byte() };
        let size = random.up_to(400);
        let place = random.up_to(size);
        let message = Message::new(kind, seq, part(&pool, len, &mut random));
        tally.write(part(&pool, size, &mut random), place, message);
    }
    tally.report("generated calls", [20_000, 10_000, 20_000]);
}
