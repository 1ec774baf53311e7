//! The checksum that C programs call, beside the independent one.

use compare::Random;
use independent::checksum::checksum as expected;
use independent::vectors::PUBLISHED;

fn same(bytes: &[u8]) {
    let (proved, other) = (binding::checksum(bytes), expected(bytes));
    assert!(
        proved == other,
        "{} bytes: {proved:04x} from the library, {other:04x} from the independent one; they begin {:02x?}",
        bytes.len(),
        &bytes[..bytes.len().min(32)]
    );
}

#[test]
fn published_vectors() {
    for (bytes, published) in PUBLISHED {
        assert_eq!(binding::checksum(bytes), published, "checksum of {bytes:02x?}");
    }
}

#[test]
fn every_input_of_length_0_1_and_2() {
    same(&[]);
    for first in 0..=255 {
        same(&[first]);
        for second in 0..=255 {
            same(&[first, second]);
        }
    }
    println!("compared: checksum, all inputs of length 0, 1 and 2 agree");
}

#[test]
fn many_inputs_of_length_0_to_5000() {
    const INPUTS: usize = 12_000;
    const LONGEST: usize = 5_000;
    let mut random = Random::seeded("checksum of generated inputs");
    for input in 0..INPUTS {
        // each length once, then lengths drawn at random; one input in eight is a single byte repeated
        let length = if input <= LONGEST { input } else { random.up_to(LONGEST) };
        let bytes = if input % 8 == 7 {
            vec![random.byte(); length]
        } else {
            random.bytes(length)
        };
        same(&bytes);
    }
    println!("compared: checksum, {INPUTS} generated inputs of length 0 to {LONGEST} agree");
}

#[test]
fn a_part_that_starts_anywhere() {
    let mut random = Random::seeded("checksum of parts");
    let bytes = random.bytes(64);
    for start in 0..bytes.len() {
        for end in start..=bytes.len() {
            same(&bytes[start..end]);
        }
    }
    println!("compared: checksum, all parts of {} bytes agree", bytes.len());
}

#[test]
fn every_remainder_of_8_at_every_start() {
    const LONGEST: usize = 264;
    const STARTS: usize = 16;
    let mut random = Random::seeded("checksum at every start");
    let bytes = random.bytes(STARTS + LONGEST);
    for start in 0..STARTS {
        for length in 0..=LONGEST {
            same(&bytes[start..start + length]);
        }
    }
    println!("compared: checksum, all lengths to {LONGEST} at {STARTS} starts agree");
}

// Of a linear function these say all: a shift that is wrong anywhere shows in one of them.
#[test]
fn every_single_bit() {
    const LONGEST: usize = 136;
    let mut inputs = 0;
    for length in 0..=LONGEST {
        let mut bytes = vec![0; length];
        for at in 0..length {
            for bit in 0..8 {
                bytes[at] = 1 << bit;
                same(&bytes);
                inputs += 1;
            }
            bytes[at] = 0;
        }
    }
    println!("compared: checksum, {inputs} inputs of a single bit, of length 0 to {LONGEST}, agree");
}

#[test]
fn sixteen_mebibytes() {
    let mut random = Random::seeded("checksum of 16 MiB");
    same(&random.bytes(16 << 20));
    println!("compared: checksum, 16 MiB agree");
}

#[test]
fn no_bytes_behind_a_null_pointer() {
    // SAFETY: with length 0 the pointer is not followed.
    let found = unsafe { binding::c::fizrahum_checksum(std::ptr::null(), 0) };
    assert_eq!(found, expected(&[]));
}
