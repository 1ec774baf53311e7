//! What is written and read again, and what is read and written again, through the C functions alone.

use binding::MESSAGE;
use compare::reader::whole;
use compare::slices::{message, mixture, KINDS};
use compare::Random;
use independent::message::{Message, ACK, NAK};

#[test]
fn write_then_read() {
    const MESSAGES: usize = 50_000;
    let mut random = Random::seeded("round trip, write then read");
    for _ in 0..MESSAGES {
        let kind = random.one_of(&KINDS);
        let len = if kind == ACK || kind == NAK {
            0
        } else {
            1 + random.up_to(255)
        };
        let seq = if kind == NAK { 0 } else { random.byte() };
        let payload = random.bytes(len);
        let (place, behind) = (random.up_to(50), random.up_to(50));
        let mut buffer = random.bytes(place + 10 + len + behind);
        assert_eq!(binding::write(&mut buffer, place, kind, seq, &payload), 10 + len);
        let found = binding::read(&buffer[place..]);
        assert_eq!(found, whole(Message::new(kind, seq, &payload), 0));
        assert_eq!(buffer[place + found.payload..][..found.len], payload);
    }
    println!("compared: round trip, {MESSAGES} messages written and read again");
}

#[test]
fn read_then_write() {
    const SLICES: usize = 50_000;
    let mut random = Random::seeded("round trip, read then write");
    let (mut same, mut nak) = (0, 0);
    for slice in 0..SLICES {
        let bytes = if slice % 2 == 0 {
            message(&mut random)
        } else {
            mixture(&mut random)
        };
        let found = binding::read(&bytes);
        if found.answer != MESSAGE {
            continue;
        }
        let read = &bytes[found.dropped..][..found.removed];
        let mut buffer = random.bytes(read.len());
        let answer = binding::write(
            &mut buffer,
            0,
            found.kind,
            found.seq,
            &bytes[found.payload..][..found.len],
        );
        if found.kind == NAK && found.seq != 0 {
            assert_eq!(answer, 7, "a NAK is written with SEQ 0 alone");
            nak += 1;
        } else {
            assert_eq!(answer, read.len());
            assert_eq!(buffer, read);
            same += 1;
        }
    }
    println!("compared: round trip, {same} messages read and written again with the same bytes, {nak} NAKs with SEQ refused");
    assert!(same >= 20_000 && nak >= 5_000);
}
