//! Document 01's "Capture lister": "`items`, a line an item .. then `end` and the held count, numbers in decimal".

use crate::line::{items, Decided};
use crate::message::{ACK, DATA_NSQ, DATA_SEQ, NAK};

/// What the program `lister` must print for a capture that arrives in these pieces.
pub fn listing<'a>(pieces: impl IntoIterator<Item = &'a [u8]>) -> String {
    let (items, held) = items(pieces);
    let mut lines = vec![String::from("items")];
    lines.extend(items.iter().map(line));
    lines.push(format!("end {}", held.len()));
    lines.join("\n") + "\n"
}

/// "`ACK s 0`, `NAK s 0`, `SEQ s len`, `NSQ s len`, `BADHEAD`, `BADBODY`, `FORBIDDEN`"
fn line(item: &Decided) -> String {
    match item {
        Decided::DamagedHeader => String::from("BADHEAD"),
        Decided::DamagedPayload => String::from("BADBODY"),
        Decided::Forbidden => String::from("FORBIDDEN"),
        Decided::Message { kind, seq, payload } => format!("{} {seq} {}", word(*kind), payload.len()),
    }
}

fn word(kind: u8) -> &'static str {
    match kind {
        ACK => "ACK",
        NAK => "NAK",
        DATA_SEQ => "SEQ",
        DATA_NSQ => "NSQ",
        _ => unreachable!("a message has one of the four TYPEs"),
    }
}

#[cfg(test)]
mod tests {
    use super::*;
    use crate::examples::{example_9, example_of_the_lister, EXAMPLE_6};
    use crate::message::{header, Message};

    #[test]
    fn the_example_of_document_01() {
        assert_eq!(listing([&example_of_the_lister()[..]]), "items\nACK 0 0\nend 17\n");
    }

    #[test]
    fn every_line() {
        let capture = [
            &Message::new(NAK, 9, &[]).bytes()[..],
            &EXAMPLE_6,
            &header(ACK, 1, 0),
            &Message::new(DATA_NSQ, 255, &[0; 256]).bytes(),
            &example_9(),
            &[0xAA, 0x55, 0, 0, 0, 0, 0, 0, 0xAA],
        ]
        .concat();
        let wanted = "items\nNAK 9 0\nSEQ 0 8\nFORBIDDEN\nNSQ 255 256\nBADBODY\nBADHEAD\nend 1\n";
        assert_eq!(listing([&capture[..]]), wanted);
        for size in 1..capture.len() {
            assert_eq!(listing(capture.chunks(size)), wanted, "in pieces of {size}");
        }
    }

    #[test]
    fn no_bytes() {
        assert_eq!(listing([]), "items\nend 0\n");
        assert_eq!(listing([&[][..]]), "items\nend 0\n");
    }
}
