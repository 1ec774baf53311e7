//! One contest: each contender on the same input, by its best time.

use std::fmt::Debug;
use std::hint::black_box;
use std::time::{Duration, Instant};

const ROUNDS: usize = 10;

/// A name, and what is timed. The first contender of a contest is the library.
pub type Contender<Input, Answer> = (&'static str, fn(&Input) -> Answer);

/// Prints a line for each contender; all must answer the same.
pub fn contest<Answer: Debug + PartialEq>(title: &str, bytes: &[u8], contenders: &[Contender<[u8], Answer>]) {
    let best = race(bytes, contenders);
    for ((name, _), time) in contenders.iter().zip(&best) {
        println!(
            "{title}: {name:width$}: {:7.1} MB/s, {:.2} times the library's time",
            bytes.len() as f64 / time.as_secs_f64() / 1e6,
            time.as_secs_f64() / best[0].as_secs_f64(),
            width = width(contenders)
        );
    }
}

/// The best time of each contender; all must answer the same.
/// In each round each of them runs once. The first round warms up; of the ten after it the best time of each counts.
/// The input is only read, so no buffer is cleared between runs.
pub fn race<Input: ?Sized, Answer: Debug + PartialEq>(
    input: &Input,
    contenders: &[Contender<Input, Answer>],
) -> Vec<Duration> {
    let mut best = vec![Duration::MAX; contenders.len()];
    let wanted = contenders[0].1(input);
    for round in 0..=ROUNDS {
        for (at, (name, timed)) in contenders.iter().enumerate() {
            let began = Instant::now();
            let found = timed(black_box(input));
            let time = began.elapsed();
            assert_eq!(found, wanted, "{name}");
            if round > 0 {
                best[at] = best[at].min(time);
            }
        }
    }
    best
}

/// The length of the longest name.
pub fn width<Timed>(contenders: &[(&str, Timed)]) -> usize {
    contenders.iter().map(|(name, _)| name.len()).max().unwrap_or(0)
}
