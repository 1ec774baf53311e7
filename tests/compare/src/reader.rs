//! One slice through the C reader and the independent one, and a count of the answers met.

use binding::{Reading, DAMAGED_HEADER, DAMAGED_PAYLOAD, FORBIDDEN, MESSAGE, UNDECIDED};
use independent::message::Message;
use independent::reader::Item;

/// The answers, in the order of a tally's counts.
const ANSWERS: [(u8, &str); 5] = [
    (UNDECIDED, "undecided"),
    (DAMAGED_HEADER, "damaged header"),
    (FORBIDDEN, "forbidden"),
    (DAMAGED_PAYLOAD, "damaged payload"),
    (MESSAGE, "message"),
];

/// How often each answer was met.
#[derive(Default)]
pub struct Tally([usize; 5]);

impl Tally {
    /// Both readers on one slice.
    pub fn slice(&mut self, bytes: &[u8]) -> Reading {
        self.agree(bytes, binding::read(bytes))
    }

    /// Both readers on the slice, and again behind each item until they are undecided.
    pub fn items(&mut self, mut bytes: &[u8]) {
        loop {
            let found = self.slice(bytes);
            if found.answer == UNDECIDED {
                return;
            }
            bytes = &bytes[found.dropped + found.removed..];
        }
    }

    /// Counts what the C reader found in the bytes; it must be what the independent one finds, in every number.
    pub fn agree(&mut self, bytes: &[u8], found: Reading) -> Reading {
        let wanted = independent(bytes);
        assert!(
            found == wanted,
            "{} bytes: the library found {found:?}, the independent one {wanted:?}; they begin {:02x?}",
            bytes.len(),
            &bytes[..bytes.len().min(300)]
        );
        let place = ANSWERS.iter().position(|(answer, _)| *answer == found.answer);
        self.0[place.expect("an answer of the header")] += 1;
        found
    }

    /// Prints the counts, each of which must be at least what is asked for.
    pub fn report(&self, what: &str, least: [usize; 5]) {
        let counts: Vec<String> = ANSWERS
            .iter()
            .zip(self.0)
            .map(|((_, name), met)| format!("{met} {name}"))
            .collect();
        println!(
            "compared: reader, {what}: {} slices agree: {}",
            self.0.iter().sum::<usize>(),
            counts.join(", ")
        );
        for ((_, name), (met, least)) in ANSWERS.iter().zip(self.0.into_iter().zip(least)) {
            assert!(
                met >= least,
                "{what}: {name} was met {met} times and should be {least} times"
            );
        }
    }
}

/// What the C reader must answer where so many bytes are dropped before the whole message.
pub fn whole(message: Message, dropped: usize) -> Reading {
    let Message { kind, seq, payload } = message;
    Reading {
        answer: MESSAGE,
        kind,
        seq,
        payload: dropped + 8,
        len: payload.len(),
        dropped,
        removed: 10 + payload.len(),
    }
}

/// The independent reading, in the numbers of the C function.
fn independent(bytes: &[u8]) -> Reading {
    let found = independent::reader::read(bytes);
    let none = |answer| Reading {
        answer,
        dropped: found.dropped,
        removed: found.removed,
        ..Reading::default()
    };
    match found.item {
        Item::Undecided => none(UNDECIDED),
        Item::DamagedHeader => none(DAMAGED_HEADER),
        Item::Forbidden => none(FORBIDDEN),
        Item::DamagedPayload => none(DAMAGED_PAYLOAD),
        Item::Message(Message { kind, seq, payload }) => Reading {
            kind,
            seq,
            // a part of the bytes: its place is how far apart the two begin
            payload: payload.as_ptr().addr() - bytes.as_ptr().addr(),
            len: payload.len(),
            ..none(MESSAGE)
        },
    }
}
