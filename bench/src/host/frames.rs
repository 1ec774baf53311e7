//! What the plain endpoint puts into lent buffers: messages at their front.

pub const NAK: u8 = 0x04;
pub const ACK: u8 = 0x40;
pub const DATA_SEQ: u8 = 0x80;

/// Bytes of a header with SYN, and of a command before its data.
const HEADER: usize = 8;
const HEAD: usize = 8;
/// The first byte of a command.
pub const MARK: u8 = 0x80;

#[derive(Clone, Copy, Debug, Default, PartialEq, Eq)]
pub struct Fields {
    pub tc: u8,
    pub tid: u8,
    pub sid: u8,
    pub iid: u8,
    pub cid: u8,
}

/// An ACK or a NAK; its length.
pub fn control(reply: &mut [u8], kind: u8, seq: u8, checksum: impl Fn(&[u8]) -> u16) -> usize {
    header(reply, kind, 0, seq, checksum);
    // the checksum of no bytes
    reply[HEADER..HEADER + 2].copy_from_slice(&[0xFF, 0xFF]);
    HEADER + 2
}

/// The frame of a command; its length.
pub fn command(
    output: &mut [u8],
    seq: u8,
    fields: Fields,
    id: u16,
    data: &[u8],
    checksum: impl Fn(&[u8]) -> u16,
) -> usize {
    let len = HEAD + data.len();
    header(output, DATA_SEQ, len as u16, seq, &checksum);
    let Fields { tc, tid, sid, iid, cid } = fields;
    let [low, high] = id.to_le_bytes();
    let end = HEADER + len;
    output[HEADER..HEADER + HEAD].copy_from_slice(&[MARK, tc, tid, sid, iid, low, high, cid]);
    output[HEADER + HEAD..end].copy_from_slice(data);
    let sum = checksum(&output[HEADER..end]).to_le_bytes();
    output[end..end + 2].copy_from_slice(&sum);
    end + 2
}

fn header(buffer: &mut [u8], kind: u8, len: u16, seq: u8, checksum: impl Fn(&[u8]) -> u16) {
    let [low, high] = len.to_le_bytes();
    buffer[..6].copy_from_slice(&[0xAA, 0x55, kind, low, high, seq]);
    let sum = checksum(&buffer[2..6]).to_le_bytes();
    buffer[6..HEADER].copy_from_slice(&sum);
}
