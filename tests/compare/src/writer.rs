//! One call of the C writer beside the independent one, and a count of the answers met.

use crate::Random;
use independent::message::Message;
use independent::writer::{written, FORBIDDEN_HEADER, NO_ROOM};

/// How often a message was written, and how often each refusal was met.
#[derive(Default)]
pub struct Tally {
    written: usize,
    no_room: usize,
    forbidden: usize,
}

impl Tally {
    /// Both writers on equal buffers: the answer and the whole buffer afterwards must be the same.
    /// The C writer's buffers stand on the heap and are exactly as long as it is told.
    pub fn write(&mut self, before: &[u8], place: usize, message: Message) {
        let mut buffer: Box<[u8]> = before.into();
        let payload: Box<[u8]> = message.payload.into();
        let answer = binding::write(&mut buffer, place, message.kind, message.seq, &payload);
        let (count, wanted, after) = match written(before, place, message) {
            Ok(after) => (&mut self.written, message.payload.len() + 10, after),
            Err(FORBIDDEN_HEADER) => (&mut self.forbidden, 7, before.to_vec()),
            Err(NO_ROOM) => (&mut self.no_room, 6, before.to_vec()),
            Err(other) => panic!("the writer has no refusal {other}"),
        };
        *count += 1;
        assert!(
            answer == wanted && *buffer == after,
            "TYPE {:02x}, SEQ {}, LEN {} at {place} of {}: {answer}, wanted {wanted}; the buffers differ at {:?}",
            message.kind,
            message.seq,
            payload.len(),
            before.len(),
            buffer.iter().zip(after).position(|(found, wanted)| *found != wanted)
        );
    }

    /// Prints the counts, each of which must be at least what is asked for: written, refused with 6, with 7.
    pub fn report(&self, what: &str, least: [usize; 3]) {
        let counts = [self.written, self.no_room, self.forbidden];
        println!(
            "compared: writer, {what}: {} calls agree: {} written, {} refused with 6, {} refused with 7",
            counts.iter().sum::<usize>(),
            counts[0],
            counts[1],
            counts[2]
        );
        for (met, least) in counts.into_iter().zip(least) {
            assert!(met >= least, "{what}: met {counts:?} and should be {least} at least");
        }
    }
}

/// Places in a buffer: the ends, just fitting, one past, and those whose sum with 10 + LEN would wrap in 64 bits.
pub fn places(size: usize, len: usize, random: &mut Random) -> [usize; 14] {
    let length = len + 10;
    let fitting = size.saturating_sub(length);
    let wraps_to_0 = usize::MAX - length + 1;
    [
        0,
        1,
        fitting,
        fitting.saturating_sub(1),
        fitting + 1,
        random.up_to(fitting),
        size,
        size + 1,
        random.number() as usize,
        wraps_to_0 - 1,
        wraps_to_0,
        wraps_to_0 + random.up_to(9),
        usize::MAX - 9,
        usize::MAX,
    ]
}
