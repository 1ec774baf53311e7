//! A plain reader to compare with, by the six rules of document 01, and what is timed: a walk from item to item.

use crate::checksum;
use binding::{Reading, DAMAGED_HEADER, DAMAGED_PAYLOAD, FORBIDDEN, MESSAGE, UNDECIDED};

pub const SYN: [u8; 2] = [0xAA, 0x55];

/// Never inlined: the library's reader is not either.
#[inline(never)]
fn read(bytes: &[u8], checksum: impl Fn(&[u8]) -> u16) -> Reading {
    let dropped = front(bytes);
    let item = |answer, removed| Reading {
        answer,
        dropped,
        removed,
        ..Reading::default()
    };
    let Some((header, rest)) = bytes[dropped..].split_at_checked(8) else {
        return item(UNDECIDED, 0);
    };
    if checksum(&header[2..6]).to_le_bytes() != header[6..] {
        return item(DAMAGED_HEADER, 2);
    }
    let (kind, seq) = (header[2], header[5]);
    let len = usize::from(u16::from_le_bytes([header[3], header[4]]));
    if !is_allowed(kind, len) {
        return item(FORBIDDEN, 2);
    }
    if rest.len() < len + 2 {
        return item(UNDECIDED, 0);
    }
    if checksum(&rest[..len]).to_le_bytes() != rest[len..len + 2] {
        return item(DAMAGED_PAYLOAD, 2);
    }
    Reading {
        kind,
        seq,
        payload: dropped + 8,
        len,
        ..item(MESSAGE, 10 + len)
    }
}

pub fn is_allowed(kind: u8, len: usize) -> bool {
    match kind {
        0x04 | 0x40 => len == 0,
        0x80 | 0x00 => (1..=256).contains(&len),
        _ => false,
    }
}

/// Where AA 55 stands first, or a lone AA at the end; otherwise the end.
pub fn front(bytes: &[u8]) -> usize {
    let lone = || bytes.len() - usize::from(bytes.last() == Some(&SYN[0]));
    bytes.windows(2).position(|pair| pair == SYN).unwrap_or_else(lone)
}

/// Hands each item on to `each`, the undecided end too.
fn walk(mut bytes: &[u8], read: impl Fn(&[u8]) -> Reading, mut each: impl FnMut(Reading)) {
    loop {
        let found = read(bytes);
        each(found);
        if found.answer == UNDECIDED {
            return;
        }
        bytes = &bytes[found.dropped + found.removed..];
    }
}

/// The number of items, and a sum in which every number of each of them counts by its place in the list.
type Items = (u64, u64);

fn items(bytes: &[u8], read: impl Fn(&[u8]) -> Reading) -> Items {
    let (mut count, mut sum) = (0, 0_u64);
    walk(bytes, read, |found| {
        count += 1;
        let Reading {
            answer,
            kind,
            seq,
            payload,
            len,
            dropped,
            removed,
        } = found;
        for number in [answer.into(), kind.into(), seq.into(), payload, len, dropped, removed] {
            sum = sum.wrapping_mul(31).wrapping_add(number as u64);
        }
    });
    (count, sum)
}

pub fn library(bytes: &[u8]) -> Items {
    items(bytes, binding::read)
}

pub fn by_bits(bytes: &[u8]) -> Items {
    items(bytes, |bytes| read(bytes, checksum::by_bits))
}

pub fn by_table(bytes: &[u8]) -> Items {
    items(bytes, |bytes| read(bytes, checksum::by_table))
}

/// Stops where the library and the plain reader, with either checksum, find different items.
pub fn must_agree(bytes: &[u8]) {
    let list = |read: &dyn Fn(&[u8]) -> Reading| {
        let mut list = Vec::new();
        walk(bytes, read, |found| list.push(found));
        list
    };
    let library = list(&binding::read);
    for checksum in [checksum::by_bits, checksum::by_table] {
        assert!(library == list(&|bytes| read(bytes, checksum)), "the items differ");
    }
}
