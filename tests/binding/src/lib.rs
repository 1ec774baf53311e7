//! The functions of `include/fizrahum.h`, and the line's. Nothing checks these declarations against the proved source, so
//! they are few.

pub mod line;

/// The functions as C sees them.
pub mod c {
    extern "C" {
        pub fn fizrahum_checksum(bytes: *const u8, length: usize) -> u16;
        pub fn fizrahum_write(
            buffer: *mut u8,
            size: usize,
            place: usize,
            kind: u8,
            seq: u8,
            payload: *const u8,
            length: usize,
        ) -> usize;
        pub fn fizrahum_read(
            bytes: *const u8,
            length: usize,
            kind: *mut u8,
            seq: *mut u8,
            payload: *mut usize,
            len: *mut usize,
            dropped: *mut usize,
            removed: *mut usize,
        ) -> u8;
        pub fn fizrahum_audit(ids: *const u16, count: usize, reserved: u64) -> usize;
    }
}

pub fn checksum(bytes: &[u8]) -> u16 {
    // SAFETY: the function asks for a pointer to as many bytes as it is told, and only reads them.
    unsafe { c::fizrahum_checksum(bytes.as_ptr(), bytes.len()) }
}

/// Answers the length of the message or the refusal.
pub fn write(buffer: &mut [u8], place: usize, kind: u8, seq: u8, payload: &[u8]) -> usize {
    let (size, length) = (buffer.len(), payload.len());
    // SAFETY: both pointers have as many bytes as is said, and a slice that may be written to overlaps no other.
    unsafe { c::fizrahum_write(buffer.as_mut_ptr(), size, place, kind, seq, payload.as_ptr(), length) }
}

/// What the reader answers, and the numbers that it sets. The default is undecided with nothing dropped.
#[derive(Clone, Copy, Debug, Default, PartialEq, Eq)]
pub struct Reading {
    pub answer: u8,
    pub kind: u8,
    pub seq: u8,
    pub payload: usize,
    pub len: usize,
    pub dropped: usize,
    pub removed: usize,
}

pub const UNDECIDED: u8 = 0;
pub const DAMAGED_HEADER: u8 = 2;
pub const FORBIDDEN: u8 = 3;
pub const DAMAGED_PAYLOAD: u8 = 5;
pub const MESSAGE: u8 = 6;

/// No number starts as 0, so that one which is left unset shows.
pub fn read(bytes: &[u8]) -> Reading {
    let (mut kind, mut seq) = (0xEE, 0xEE);
    let [mut payload, mut len, mut dropped, mut removed] = [usize::MAX; 4];
    let answer = read_into(
        bytes,
        &mut kind,
        &mut seq,
        &mut payload,
        &mut len,
        &mut dropped,
        &mut removed,
    );
    Reading {
        answer,
        kind,
        seq,
        payload,
        len,
        dropped,
        removed,
    }
}

/// The same, with the six numbers wherever the caller has them.
pub fn read_into(
    bytes: &[u8],
    kind: &mut u8,
    seq: &mut u8,
    payload: &mut usize,
    len: &mut usize,
    dropped: &mut usize,
    removed: &mut usize,
) -> u8 {
    // SAFETY: the first pointer has as many bytes as is said; each of the others is a reference to a number of its own.
    unsafe { c::fizrahum_read(bytes.as_ptr(), bytes.len(), kind, seq, payload, len, dropped, removed) }
}

/// Answers the position found, or the number of IDs where there is none.
pub fn audit(ids: &[u16], reserved: u64) -> usize {
    // SAFETY: the function asks for a pointer to as many IDs as it is told, and only reads them.
    unsafe { c::fizrahum_audit(ids.as_ptr(), ids.len(), reserved) }
}
