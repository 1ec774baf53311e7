//! What is timed of an audit: rows in which nothing is found, so that each of their IDs is looked at.

use crate::contest::{race, width, Contender};
use crate::input;
use std::hint::black_box;

/// IDs of the rows. The last row has every one but 0.
const COUNTS: [u16; 4] = [10, 1_000, 60_000, 65_535];
/// IDs that are audited in one run, in as many calls as that takes.
const IDS: usize = 6_000_000;
/// No ID but 0 is reserved.
const R: u64 = 0;

pub fn report() {
    for count in COUNTS {
        rows_of(count);
    }
    println!("audit: both have a table of 8 KiB, a bit for each ID, and clear it in each call");
}

/// A line for each contender: its time divided by the number of IDs, and by that of calls.
fn rows_of(count: u16) {
    let contenders: [Contender<[u16], usize>; 2] = [
        ("library (proved)", |ids| answers(ids, binding::audit)),
        ("Rust", |ids| answers(ids, plain)),
    ];
    let ids = input::ids(count);
    assert_eq!(plain(&ids, black_box(R)), ids.len(), "nothing is found");
    let best = race(&ids[..], &contenders);
    for ((name, _), time) in contenders.iter().zip(&best) {
        let call = time.as_secs_f64() / calls(&ids) as f64;
        println!(
            "audit, {count} IDs: {name:width$}: {:7.2} ns an ID, {:7.2} microseconds a row, {:.2} times the library's time",
            call * 1e9 / f64::from(count),
            call * 1e6,
            time.as_secs_f64() / best[0].as_secs_f64(),
            width = width(&contenders)
        );
    }
}

fn calls(ids: &[u16]) -> usize {
    IDS / ids.len()
}

/// The sum of the answers of all calls.
fn answers(ids: &[u16], audit: impl Fn(&[u16], u64) -> usize) -> usize {
    (0..calls(ids)).map(|_| audit(black_box(ids), black_box(R))).sum()
}

/// A plain audit to compare with. It marks an ID before it looks whether it was marked, which ran faster than the other way
/// round. Never inlined: the library's is not either.
#[inline(never)]
fn plain(ids: &[u16], reserved: u64) -> usize {
    let mut seen = [0_u64; 1024];
    for (position, &id) in ids.iter().enumerate() {
        if id == 0 || u64::from(id) <= reserved {
            return position;
        }
        let word = &mut seen[usize::from(id / 64)];
        let before = *word;
        *word |= 1 << (id % 64);
        if before >> (id % 64) & 1 == 1 {
            return position;
        }
    }
    ids.len()
}
