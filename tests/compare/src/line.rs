//! The line's compiled function and the independent line side by side, and a count of the answers met.

use crate::held::Rest;
use binding::line::{receive_in, Line, Received, MORE, REFUSED};
use binding::{DAMAGED_HEADER, DAMAGED_PAYLOAD, FORBIDDEN, MESSAGE};
use independent::line::{self, Decided};
use std::collections::BTreeSet;

/// The answers, in the order of a tally's counts.
const ANSWERS: [(u8, &str); 5] = [
    (MORE, "more"),
    (DAMAGED_HEADER, "damaged header"),
    (FORBIDDEN, "forbidden"),
    (DAMAGED_PAYLOAD, "damaged payload"),
    (MESSAGE, "message"),
];

/// Both lines, with the same held bytes.
#[derive(Default)]
pub struct Lines {
    compiled: Line,
    independent: line::Line,
}

impl Lines {
    /// Any bytes, not only such as a line would hold.
    pub fn holding(held: &[u8]) -> Self {
        let mut lines = Lines::default();
        lines.compiled.array[..held.len()].copy_from_slice(held);
        lines.compiled.count = held.len();
        lines.independent.held = held.to_vec();
        lines
    }
}

/// How often each answer was met, how many items came of held bytes alone, and which counts of bytes were held after a call.
#[derive(Default)]
pub struct Tally {
    answers: [usize; 5],
    from_held: usize,
    counts: BTreeSet<usize>,
}

impl Tally {
    /// "each piece is handed in, its untaken rest again, until receive answers *more*". The rest of the array is filled
    /// before each call, or left as the call before left it.
    pub fn piece(&mut self, lines: &mut Lines, mut piece: &[u8], mut rest: Option<&mut Rest>) {
        loop {
            if let Some(rest) = &mut rest {
                rest.fill(&mut lines.compiled);
            }
            let found = lines.compiled.receive(piece);
            self.agree(&mut lines.independent, piece, found, lines.compiled.held());
            if found.answer == MORE {
                return;
            }
            piece = &piece[found.taken..];
        }
    }

    /// Counts what a call found and the bytes held after it; both must be what they are for the independent line.
    pub fn agree(&mut self, line: &mut line::Line, new: &[u8], found: Received, held: &[u8]) {
        let before = line.held.clone();
        let wanted = independent(line, new);
        assert!(
            found == wanted && held == line.held,
            "{before:02x?} held, {} new bytes: the library answers {found:?} and holds {held:02x?}, the independent line \
             {wanted:?} and {:02x?}; the new bytes begin {:02x?}",
            new.len(),
            line.held,
            &new[..new.len().min(300)]
        );
        let place = ANSWERS.iter().position(|(answer, _)| *answer == found.answer);
        self.answers[place.expect("an answer of the function")] += 1;
        self.from_held += usize::from(found.answer != MORE && found.taken == 0);
        self.counts.insert(held.len());
    }

    /// Prints the counts. Each answer must be met as often as is asked for, items of held bytes alone too, and so many
    /// different counts of held bytes.
    pub fn report(&self, what: &str, least: [usize; 5], least_from_held: usize, least_counts: usize) {
        let counts: Vec<String> = ANSWERS
            .iter()
            .zip(self.answers)
            .map(|((_, name), met)| format!("{met} {name}"))
            .collect();
        println!(
            "compared: line, {what}: {} calls agree: {}; {} items of held bytes alone, {} held counts",
            self.answers.iter().sum::<usize>(),
            counts.join(", "),
            self.from_held,
            self.counts.len()
        );
        for ((_, name), (met, least)) in ANSWERS.iter().zip(self.answers.into_iter().zip(least)) {
            assert!(
                met >= least,
                "{what}: {name} was met {met} times and should be {least} times"
            );
        }
        assert!(
            self.from_held >= least_from_held,
            "{what}: too few items of held bytes alone"
        );
        assert!(
            self.counts.len() >= least_counts,
            "{what}: too few held counts were met"
        );
    }
}

/// The call of the independent line, in the numbers of the C function.
fn independent(line: &mut line::Line, new: &[u8]) -> Received {
    let line::Received { item, taken } = line.receive(new);
    let none = |answer| Received {
        answer,
        taken,
        ..Received::default()
    };
    match item {
        None => none(MORE),
        Some(Decided::DamagedHeader) => none(DAMAGED_HEADER),
        Some(Decided::Forbidden) => none(FORBIDDEN),
        Some(Decided::DamagedPayload) => none(DAMAGED_PAYLOAD),
        Some(Decided::Message { kind, seq, payload }) => Received {
            kind,
            seq,
            len: payload.len(),
            ..none(MESSAGE)
        },
    }
}

/// A call that must be refused: the answer is 1, every number is 0, and the array is as it was.
/// Array and new bytes stand on the heap and are exactly as long as the function is told.
pub fn refused(before: &[u8], count: usize, new: &[u8]) {
    let mut array: Box<[u8]> = before.into();
    let new: Box<[u8]> = new.into();
    let found = receive_in(&mut array, count, &new);
    let wanted = Received {
        answer: REFUSED,
        ..Received::default()
    };
    assert!(
        found == (wanted, 0) && *array == *before,
        "count {count} in {} bytes: {found:?}; the arrays differ at {:?}",
        before.len(),
        array.iter().zip(before).position(|(found, wanted)| found != wanted)
    );
}
