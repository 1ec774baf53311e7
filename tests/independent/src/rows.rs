//! What the program `row_audit` prints: sample rows with their audits, and the audits of every row of up to three over a
//! few IDs.

use crate::audit::audit;
use std::fmt::Write;

/// Rows of IDs, each with its R.
const IDS: [(&[u16], u64); 12] = [
    (&[], 38),
    (&[39, 40, 41], 38),
    (&[39, 40, 41], 0),
    (&[256, 65_535], 255),
    (&[39, 0, 41], 38),
    (&[0, 41], 0),
    (&[39, 40, 38], 38),
    (&[39, 40, 38], 39),
    (&[39, 40, 40, 39], 38),
    (&[39, 40, 41, 39], 38),
    (&[65_535], 65_535),
    (&[65_535], u64::MAX),
];

/// The IDs of rows of records that are in use, R = 38.
const RECORDS: [&[u16]; 6] = [
    &[39, 40, 41],
    &[],
    &[0, 40, 41],
    &[39, 38, 41],
    &[39, 40, 39],
    &[39, 40],
];

/// Every row is of these, with each R.
const OF: [u16; 5] = [0, 1, 38, 39, 65_535];
const RESERVED: [u64; 5] = [0, 1, 38, 65_534, u64::MAX];

pub fn listing() -> String {
    let mut text = String::new();
    for (ids, r) in IDS {
        line(&mut text, "ids", ids, r);
    }
    for ids in RECORDS {
        line(&mut text, "records", ids, 38);
    }
    for r in RESERVED {
        for in_use in 0..=3 {
            let answers: String = every_three().map(|row| answer(&row[..in_use], r)).collect();
            writeln!(text, "R {r}, first {in_use}: {answers}").unwrap();
        }
    }
    text
}

fn line(text: &mut String, what: &str, ids: &[u16], r: u64) {
    text.push_str(what);
    for id in ids {
        write!(text, " {id}").unwrap();
    }
    match audit(ids, r) {
        Some(position) => writeln!(text, ", R {r}: {position}").unwrap(),
        None => writeln!(text, ", R {r}: none").unwrap(),
    }
}

/// All rows of three, the last place changing first.
fn every_three() -> impl Iterator<Item = [u16; 3]> {
    OF.into_iter()
        .flat_map(|a| OF.into_iter().flat_map(move |b| OF.into_iter().map(move |c| [a, b, c])))
}

fn answer(ids: &[u16], r: u64) -> String {
    audit(ids, r).map_or("-".into(), |position| position.to_string())
}
