//! Published checksum vectors.

use crate::checksum::checksum;
use std::fmt::Write;

/// Bytes, and the checksum that was published for them.
pub const PUBLISHED: [(&[u8], u16); 9] = [
    // document 01, and the check value of the CRC catalogue
    (b"123456789", 0x29B1),
    (b"", 0xFFFF),
    // AUTOSAR, Specification of CRC Routines, 16-bit CCITT
    (&[0x00, 0x00, 0x00, 0x00], 0x84C0),
    (&[0xF2, 0x01, 0x83], 0xD374),
    (&[0x0F, 0xAA, 0x00, 0x55], 0x2023),
    (&[0x00, 0xFF, 0x55, 0x11], 0xB8F9),
    (&[0x33, 0x22, 0x55, 0xAA, 0xBB, 0xCC, 0xDD, 0xEE, 0xFF], 0xF53F),
    (&[0x92, 0x6B, 0x55], 0x0745),
    (&[0xFF, 0xFF, 0xFF, 0xFF], 0x1D0F),
];

/// What the program `vectors` must print: the bytes of each vector (`-` for none) and their checksum as computed here.
pub fn listing() -> String {
    let mut text = String::new();
    for (bytes, _) in PUBLISHED {
        if bytes.is_empty() {
            text.push('-');
        }
        for byte in bytes {
            write!(text, "{byte:02x}").unwrap();
        }
        writeln!(text, " {:04x}", checksum(bytes)).unwrap();
    }
    text
}

#[cfg(test)]
mod tests {
    use super::*;

    #[test]
    fn the_published_vectors() {
        for (bytes, published) in PUBLISHED {
            assert_eq!(checksum(bytes), published, "checksum of {bytes:02x?}");
        }
    }
}
