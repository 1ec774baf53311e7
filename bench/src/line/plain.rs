//! A plain line to compare with, by the item rules of document 01. It copies nothing where a whole message stands in the new
//! bytes and none are held, and otherwise only what it holds or needs; it does not go through held bytes again.

use super::header::Header;
use crate::reader::{front, SYN};
use binding::line::{Received, MORE, MOST_HELD};
use binding::{DAMAGED_PAYLOAD, MESSAGE};

/// Bytes of a header with SYN, and of a message beside its payload.
const HEADER: usize = 8;
const OVERHEAD: usize = 10;

/// The held bytes: the first `count` of the array. Where they are known to begin with a header that is let pass, it is kept.
pub struct Plain {
    array: [u8; MOST_HELD],
    count: usize,
    header: Option<Header>,
}

impl Default for Plain {
    fn default() -> Self {
        Plain {
            array: [0; MOST_HELD],
            count: 0,
            header: None,
        }
    }
}

impl Plain {
    pub fn held(&self) -> &[u8] {
        &self.array[..self.count]
    }

    /// Nothing is held.
    pub fn clear(&mut self) {
        self.count = 0;
        self.header = None;
    }

    /// Never inlined: the library's function is not either.
    #[inline(never)]
    pub fn receive(&mut self, new: &[u8], checksum: impl Fn(&[u8]) -> u16) -> Received {
        self.receive_with(new, checksum, |_, _| ())
    }

    /// A message is handed on to `act` while its payload still stands where it is.
    pub fn receive_with(
        &mut self,
        new: &[u8],
        checksum: impl Fn(&[u8]) -> u16,
        act: impl FnOnce(Header, &[u8]),
    ) -> Received {
        if let Some(header) = self.header.take() {
            return self.after_header(header, 0, new, checksum, act);
        }
        self.remove(front(self.held()));
        let breaks_syn = self.count == 1 && new.first().is_some_and(|&byte| byte != SYN[1]);
        if self.count == 0 || breaks_syn {
            return self.in_new(new, checksum, act);
        }
        let taken = HEADER.saturating_sub(self.count).min(new.len());
        self.append(&new[..taken]);
        if self.count < HEADER {
            return item(MORE, taken);
        }
        match Header::read(&self.array[..HEADER], &checksum) {
            Ok(header) => self.after_header(header, taken, new, checksum, act),
            Err(rule) => {
                self.remove(SYN.len());
                item(rule, taken)
            }
        }
    }

    /// The held bytes begin with this header, and so many of the new ones are among them.
    fn after_header(
        &mut self,
        header: Header,
        before: usize,
        new: &[u8],
        checksum: impl Fn(&[u8]) -> u16,
        act: impl FnOnce(Header, &[u8]),
    ) -> Received {
        let (rest, len, total) = (&new[before..], header.len, OVERHEAD + header.len);
        let need = total.saturating_sub(self.count);
        if rest.len() < need {
            self.append(rest);
            self.header = Some(header);
            return item(MORE, new.len());
        }
        // the array has no room for the last byte of the longest message
        let mut last = None;
        if let Some((&byte, others)) = rest[..need].split_last() {
            self.append(others);
            last = Some(byte);
        }
        let end = last.unwrap_or_else(|| self.array[total - 1]);
        if checksum(&self.array[HEADER..HEADER + len]).to_le_bytes() == [self.array[HEADER + len], end] {
            act(header, &self.array[HEADER..HEADER + len]);
            self.remove(total.min(self.count));
            return message(header, before + need);
        }
        self.remove(SYN.len());
        self.append(last.as_slice());
        item(DAMAGED_PAYLOAD, before + need)
    }

    /// Nothing is held, or an AA that is dropped.
    fn in_new(&mut self, new: &[u8], checksum: impl Fn(&[u8]) -> u16, act: impl FnOnce(Header, &[u8])) -> Received {
        self.count = 0;
        let dropped = front(new);
        let bytes = &new[dropped..];
        let Some((start, behind)) = bytes.split_at_checked(HEADER) else {
            self.append(bytes);
            return item(MORE, new.len());
        };
        let header = match Header::read(start, &checksum) {
            Ok(header) => header,
            Err(rule) => {
                self.append(&start[SYN.len()..]);
                return item(rule, dropped + HEADER);
            }
        };
        let total = OVERHEAD + header.len;
        if bytes.len() < total {
            self.append(bytes);
            self.header = Some(header);
            return item(MORE, new.len());
        }
        let (payload, behind) = behind.split_at(header.len);
        if checksum(payload).to_le_bytes() == behind[..2] {
            act(header, payload);
            return message(header, dropped + total);
        }
        self.append(&bytes[SYN.len()..total]);
        item(DAMAGED_PAYLOAD, dropped + total)
    }

    fn append(&mut self, bytes: &[u8]) {
        self.array[self.count..self.count + bytes.len()].copy_from_slice(bytes);
        self.count += bytes.len();
    }

    fn remove(&mut self, length: usize) {
        if length > 0 {
            self.array.copy_within(length..self.count, 0);
            self.count -= length;
        }
    }
}

fn message(header: Header, taken: usize) -> Received {
    let Header { kind, seq, len } = header;
    Received {
        kind,
        seq,
        len,
        ..item(MESSAGE, taken)
    }
}

fn item(answer: u8, taken: usize) -> Received {
    Received {
        answer,
        taken,
        ..Received::default()
    }
}
