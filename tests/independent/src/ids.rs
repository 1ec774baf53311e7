//! The two counters' numbers: "A sequence ID can never be handed in where a request ID is wanted."

/// A sequence ID: SEQ of a frame.
#[derive(Clone, Copy, Debug, PartialEq, Eq)]
pub struct Seq(pub u8);

impl Seq {
    /// "after 255 comes 0"
    pub fn next(self) -> Seq {
        Seq(self.0.wrapping_add(1))
    }
}

/// A request ID: RQID of a command.
#[derive(Clone, Copy, Debug, PartialEq, Eq, PartialOrd, Ord)]
pub struct RequestId(pub u16);

impl RequestId {
    /// "after 65535 comes R + 1"
    pub const LAST: RequestId = RequestId(65535);
}
