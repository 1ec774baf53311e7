//! The audit that C programs call, beside the independent one: its answer, and the row, which stays.

use compare::audit::Tally;
use compare::rows::{self, RESERVED};
use compare::Random;

/// A row with each R.
fn with_each_r(tally: &mut Tally, ids: &[u16]) {
    for r in RESERVED {
        tally.row(ids, r);
    }
}

#[test]
fn every_row_of_up_to_five() {
    const IDS: [u16; 7] = [0, 1, 38, 39, 255, 256, 65_535];
    let mut tally = Tally::default();
    for length in 0..=5 {
        for number in 0..IDS.len().pow(length) {
            let digit = |place| number / IDS.len().pow(place) % IDS.len();
            let ids: Vec<u16> = (0..length).map(|place| IDS[digit(place)]).collect();
            with_each_r(&mut tally, &ids);
        }
    }
    tally.report("every row of up to 5 of seven IDs", [1_900, 50_000, 150_000, 28_000]);
}

#[test]
fn every_id() {
    let mut tally = Tally::default();
    for id in 0..=u16::MAX {
        with_each_r(&mut tally, &[id]);
        // with those that differ from it in one bit, and again behind them
        let others = (0..16).map(|bit| id ^ 1 << bit);
        let ids: Vec<u16> = [id].into_iter().chain(others).chain([id]).collect();
        with_each_r(&mut tally, &ids[..ids.len() - 1]);
        with_each_r(&mut tally, &ids);
    }
    tally.report(
        "every ID alone, with those that differ in one bit, and again behind them",
        [500_000, 100, 500_000, 200_000],
    );
}

#[test]
fn generated_rows() {
    const ROUNDS: usize = 10;
    // those that leave an ID which is not reserved
    const MADE_WITH: [u16; 7] = [0, 1, 37, 38, 255, 256, 65_534];
    type Kind = fn(u16, &mut Random) -> Vec<u16>;
    const KINDS: [(&str, Kind, [usize; 4]); 8] = [
        ("all IDs above an R", rows::sound, [200, 0, 300, 0]),
        ("a part of them", rows::sound_part, [200, 0, 300, 0]),
        ("all with one again", rows::one_twice, [0, 0, 300, 100]),
        (
            "all with the first one again at the end",
            rows::ends_equal,
            [0, 0, 300, 100],
        ),
        ("all and ID 0", rows::with_zero, [0, 100, 300, 0]),
        ("all and one reserved", rows::with_reserved, [0, 0, 300, 0]),
        ("all and any others", rows::too_many, [0, 0, 300, 100]),
        ("any IDs", rows::any, [0, 0, 300, 100]),
    ];
    let mut random = Random::seeded("audit, generated rows");
    for (what, made, least) in KINDS {
        let mut tally = Tally::default();
        for _ in 0..ROUNDS {
            for r in MADE_WITH {
                with_each_r(&mut tally, &made(r, &mut random));
            }
        }
        tally.report(&format!("rows of up to 70,000, {what}"), least);
    }
}

#[test]
fn a_part_that_starts_anywhere() {
    let mut random = Random::seeded("audit of parts");
    let mut tally = Tally::default();
    let all = rows::sound(0, &mut random);
    let ids = [&all[..32], &all[..32], &[0]].concat();
    for start in 0..ids.len() {
        for end in start..=ids.len() {
            for r in RESERVED {
                let part = &ids[start..end];
                tally.agree(part, r, binding::audit(part, r));
            }
        }
    }
    tally.report("every part of 32 IDs, the same again, and 0", [1_000, 30, 10_000, 500]);
}

#[test]
fn no_ids_behind_a_null_pointer() {
    for r in RESERVED {
        // SAFETY: with count 0 the pointer is not followed.
        let found = unsafe { binding::c::fizrahum_audit(std::ptr::null(), 0, r) };
        assert_eq!(found, 0, "R = {r}");
    }
}
