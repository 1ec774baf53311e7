//! A line's call as compiled from the proved source, beside the independent line: the answer, its numbers, the new bytes
//! taken and the bytes held after each call.

use binding::line::{Line, Received, MORE, MOST_HELD};
use binding::{DAMAGED_PAYLOAD, MESSAGE};
use compare::captures::groups;
use compare::held::{held_and_new, Rest, CONTENTS};
use compare::line::{refused, Lines, Tally};
use compare::{slices, Random};
use independent::examples::{example_7, example_8, example_9};
use independent::message::ACK;

#[test]
fn examples_7_to_9() {
    let call = |new: &[u8]| {
        let mut line = Line::default();
        let Received {
            answer, kind, taken, ..
        } = line.receive(new);
        (answer, kind, taken, line.held().to_vec())
    };
    // "one ACK, 12 taken"; "*more*, 9 held"; "damaged payload .. 8 held"
    assert_eq!(call(&example_7()), (MESSAGE, ACK, 12, vec![]));
    assert_eq!(call(&example_8()), (MORE, 0, 9, example_8()));
    assert_eq!(call(&example_9()), (DAMAGED_PAYLOAD, 0, 10, example_9()[2..].to_vec()));
}

/// At least 3,000 captures.
fn captures(random: &mut Random) -> Vec<Vec<u8>> {
    let captures: Vec<_> = groups(random).into_iter().flat_map(|group| group.captures).collect();
    assert!(captures.len() >= 3_000, "{} captures", captures.len());
    captures
}

/// Mostly short pieces, empty ones among them, and none longer than 300 bytes.
fn piece_length(random: &mut Random) -> usize {
    let most = random.one_of(&[0, 1, 3, 10, 30, 100, 300, 300]);
    random.up_to(most)
}

#[test]
fn captures_cut_at_random() {
    let mut random = Random::seeded("line, captures cut at random");
    let mut rest = Rest::new(&mut random);
    let (mut tally, mut pieces, mut empty) = (Tally::default(), 0, 0);
    let captures = captures(&mut random);
    for (at, capture) in captures.iter().enumerate() {
        let (mut lines, mut left) = (Lines::default(), &capture[..]);
        while !left.is_empty() {
            let (piece, behind) = left.split_at(piece_length(&mut random).min(left.len()));
            let rest = if at % 2 == 0 { Some(&mut rest) } else { None };
            tally.piece(&mut lines, piece, rest);
            left = behind;
            pieces += 1;
            empty += usize::from(piece.is_empty());
        }
    }
    println!(
        "compared: line, {} captures in {pieces} pieces, {empty} of them empty",
        captures.len()
    );
    assert!(empty >= 1_000, "too few empty pieces");
    let least = [20_000, 10_000, 1_000, 2_000, 20_000];
    tally.report("captures cut at random", least, 5_000, MOST_HELD + 1);
}

#[test]
fn captures_in_pieces_of_one_length() {
    let mut random = Random::seeded("line, captures in pieces of one length");
    let mut rest = Rest::new(&mut random);
    let captures = captures(&mut random);
    for length in [1, 2, 7, 64, 265, usize::MAX] {
        let mut tally = Tally::default();
        for (at, capture) in captures.iter().enumerate() {
            let mut lines = Lines::default();
            for piece in capture.chunks(length) {
                let rest = if at % 2 == 0 { Some(&mut rest) } else { None };
                tally.piece(&mut lines, piece, rest);
            }
        }
        let what = match length {
            usize::MAX => format!("{} captures whole", captures.len()),
            _ => format!("{} captures in pieces of {length}", captures.len()),
        };
        tally.report(&what, [3_000, 10_000, 1_000, 2_000, 20_000], 5_000, MOST_HELD + 1);
    }
}

#[test]
fn any_held_bytes() {
    const ROUNDS: usize = 20;
    let mut random = Random::seeded("line, any held bytes");
    let mut rest = Rest::new(&mut random);
    let mut tally = Tally::default();
    for count in 0..=MOST_HELD {
        for content in CONTENTS {
            for round in 0..ROUNDS {
                let (held, new) = held_and_new(count, content, &mut random);
                let rest = if round % 2 == 0 { Some(&mut rest) } else { None };
                tally.piece(&mut Lines::holding(&held), &new, rest);
            }
        }
    }
    let what = format!(
        "every count 0 to {MOST_HELD} of any held bytes, {} times",
        CONTENTS.len() * ROUNDS
    );
    tally.report(&what, [40_000, 200_000, 8_000, 50_000, 100_000], 200_000, 260);
}

#[test]
fn refusals() {
    const TOO_MANY: [usize; 4] = [266, 267, 1_000, usize::MAX];
    let mut random = Random::seeded("line, refusals");
    let mut calls = 0;
    for length in 0..=300 {
        let array = slices::filled(length, &mut random, slices::message);
        let counts = [0, 1, length / 2, length, MOST_HELD].into_iter().chain(TOO_MANY);
        for count in counts.filter(|&count| length != MOST_HELD || count > MOST_HELD) {
            for new in [vec![], slices::message(&mut random), slices::mixture(&mut random)] {
                refused(&array, count, &new);
                calls += 1;
            }
        }
    }
    println!("compared: line, {calls} calls with another array or too great a count are refused");
}
