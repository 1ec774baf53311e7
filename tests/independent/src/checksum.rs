//! The checksum of document 01 as what it is in algebra: the remainder of a long division of polynomials over
//! two elements. There is no running register here, so this shares no step with the proved code.

/// "16 bits": the remainder's length, and the divisor's degree.
const DEGREE: usize = 16;

/// "polynomial 0x1021": x^16 + x^12 + x^5 + 1, by each term's distance from the highest.
const DIVISOR: [usize; 4] = [0, 4, 11, 16];

/// "start 0xFFFF": the first 16 bits of the dividend are inverted.
const INVERTED: usize = 16;

pub fn checksum(bytes: &[u8]) -> u16 {
    let mut bits = dividend(bytes);
    for at in 0..bits.len() - DEGREE {
        if bits[at] {
            for term in DIVISOR {
                bits[at + term] ^= true;
            }
        }
    }
    let remainder = &bits[bits.len() - DEGREE..];
    remainder.iter().fold(0, |number, &bit| number << 1 | u16::from(bit))
}

/// The message's bits, "highest bit first", and after them a place for each bit of the remainder.
fn dividend(bytes: &[u8]) -> Vec<bool> {
    let mut bits = Vec::with_capacity(bytes.len() * 8 + DEGREE);
    for byte in bytes {
        bits.extend((0..8).rev().map(|place| byte >> place & 1 == 1));
    }
    bits.resize(bytes.len() * 8 + DEGREE, false);
    for bit in &mut bits[..INVERTED] {
        *bit = !*bit;
    }
    bits
}
