//! Document 01's "Refusal numbers" of the ledger's calls, and the tests that more than one call makes.

use super::Ledger;

/// "endpoint malformed"
pub const MALFORMED: u8 = 1;
/// "clock below the last accepted reading"
pub const CLOCK_BELOW: u8 = 2;
/// "R over 255"
pub const R_OVER_255: u8 = 3;
/// "data over 248 bytes"
pub const DATA_OVER_248: u8 = 4;
/// "three live"
pub const THREE_LIVE: u8 = 5;
/// "reply buffer under 10 or data buffer under 248", "output buffer under 266"
pub const BUFFER_UNDER: u8 = 6;

impl Ledger {
    /// 1 and 2, which submit, receive and poll test first.
    pub(super) fn refused(&self, clock: u64) -> Result<(), u8> {
        if self.malformed() {
            return Err(MALFORMED);
        }
        if clock < self.clock {
            return Err(CLOCK_BELOW);
        }
        Ok(())
    }
}
