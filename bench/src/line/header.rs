//! What the plain line knows of a header.

use crate::reader::is_allowed;
use binding::{DAMAGED_HEADER, FORBIDDEN};

/// A header that rules 2 and 3 let pass.
#[derive(Clone, Copy)]
pub struct Header {
    pub kind: u8,
    pub seq: u8,
    pub len: usize,
}

impl Header {
    /// The header in these eight bytes, or the number of the rule that decides them.
    pub fn read(bytes: &[u8], checksum: impl Fn(&[u8]) -> u16) -> Result<Self, u8> {
        if checksum(&bytes[2..6]).to_le_bytes() != bytes[6..8] {
            return Err(DAMAGED_HEADER);
        }
        let (kind, seq) = (bytes[2], bytes[5]);
        let len = usize::from(u16::from_le_bytes([bytes[3], bytes[4]]));
        if !is_allowed(kind, len) {
            return Err(FORBIDDEN);
        }
        Ok(Header { kind, seq, len })
    }
}
