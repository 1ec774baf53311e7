//! What is timed of an endpoint: many calls of one kind, by the proved probe and on a plain endpoint alike. What else has to be
//! called to get there is timed as well and taken off.

mod frames;
mod plain;
mod probe;
mod rounds;

use crate::contest::{race, width, Contender};
use crate::{checksum, input};
use rounds::{Rounds, PIECE};
use std::time::Duration;

/// How often what is timed is done in one run, and the bytes that are received in one.
const TIMES: u64 = 100_000;
const LENGTH: usize = 1 << 20;

const LIBRARY: &str = "library (proved)";
const PLAIN: &str = "Rust";
const BITS: &str = "Rust, its checksum bit by bit";
const TABLE: &str = "Rust, its checksum by byte table";

pub fn report() {
    submits();
    quiet_polls();
    sends();
    receives();
    println!("host: the Rust endpoint is changed in place; it tests the malformed rule too");
}

fn submits() {
    let opens: [Contender<u64, u64>; 2] = [
        (LIBRARY, |&times| probe::submits(times, 0)),
        (PLAIN, |&times| by_table().submits(times, 0)),
    ];
    let all: [Contender<u64, u64>; 2] = [
        (LIBRARY, |&times| probe::submits(times, 3)),
        (PLAIN, |&times| by_table().submits(times, 3)),
    ];
    print("submit", &all, difference(&all, &opens), 3 * TIMES);
}

fn quiet_polls() {
    let all: [Contender<u64, u64>; 2] = [
        (LIBRARY, |&times| probe::quiet_polls(times)),
        (PLAIN, |&times| by_table().quiet_polls(times)),
    ];
    print("poll that is quiet", &all, race(&TIMES, &all), TIMES);
}

fn sends() {
    let submits: [Contender<u64, u64>; 3] = [
        (LIBRARY, |&times| probe::submits(times, 1)),
        (BITS, |&times| by_bits().submits(times, 1)),
        (TABLE, |&times| by_table().submits(times, 1)),
    ];
    let all: [Contender<u64, u64>; 3] = [
        (LIBRARY, |&times| probe::sends(times)),
        (BITS, |&times| by_bits().sends(times)),
        (TABLE, |&times| by_table().sends(times)),
    ];
    print("poll that sends 34 bytes", &all, difference(&all, &submits), 3 * TIMES);
}

fn receives() {
    let bytes = input::events(LENGTH);
    let all: [Contender<[u8], u64>; 3] = [
        (LIBRARY, probe::receives),
        (BITS, |bytes| by_bits().receives(bytes).0),
        (TABLE, |bytes| by_table().receives(bytes).0),
    ];
    let (_, calls) = by_table().receives(&bytes);
    print("receive of events", &all, race(&bytes[..], &all), calls);
    println!(
        "host: {calls} receives for {} pieces of {PIECE} bytes, each handed in until *more*",
        LENGTH / PIECE
    );
}

fn by_bits() -> Rounds<impl Fn(&[u8]) -> u16> {
    Rounds::new(checksum::by_bits)
}

fn by_table() -> Rounds<impl Fn(&[u8]) -> u16> {
    Rounds::new(checksum::by_table)
}

/// The best times less those of the other calls alone.
fn difference(all: &[Contender<u64, u64>], others: &[Contender<u64, u64>]) -> Vec<Duration> {
    let (all, others) = (race(&TIMES, all), race(&TIMES, others));
    all.iter()
        .zip(others)
        .map(|(all, others)| all.saturating_sub(others))
        .collect()
}

/// A line for each contender: its time divided by the number of calls.
fn print<Input: ?Sized>(title: &str, contenders: &[Contender<Input, u64>], best: Vec<Duration>, calls: u64) {
    for ((name, _), time) in contenders.iter().zip(&best) {
        println!(
            "host, {title}: {name:width$}: {:7.1} ns a call, {:.2} times the library's time",
            time.as_secs_f64() * 1e9 / calls as f64,
            time.as_secs_f64() / best[0].as_secs_f64(),
            width = width(contenders)
        );
    }
}
