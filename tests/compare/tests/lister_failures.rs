//! The program `lister` where it cannot read or cannot write: it says so, and prints no whole listing.

use compare::program::{file, LISTER};
use compare::stored::long;
use independent::examples::example_of_the_lister;
use std::fs::File;
use std::process::Output;

/// Something stands on standard error, and what was printed does not end as a listing does.
fn failed(what: &str, output: &Output) {
    let text = String::from_utf8_lossy(&output.stdout);
    let last = text.lines().last().unwrap_or_default();
    assert!(!output.stderr.is_empty(), "{what}: nothing on standard error");
    assert!(!last.starts_with("end"), "{what}: the last line is {last:?}");
}

/// A short capture and a long one, each in a file.
fn captures(purpose: &str) -> [File; 2] {
    [example_of_the_lister(), long()].map(|capture| {
        let name = format!("{purpose}-{}.capture", capture.len());
        file(env!("CARGO_TARGET_TMPDIR"), &name, &capture)
    })
}

#[test]
fn standard_input_cannot_be_read() {
    // a directory opens as a file does, and each read of it fails
    let directory = File::open(env!("CARGO_TARGET_TMPDIR")).expect("the directory opens");
    failed("standard input is a directory", &LISTER.run(directory));
}

#[test]
fn standard_output_has_no_room() {
    for capture in captures("no-room") {
        failed("standard output is full", &LISTER.run_without_room(capture));
    }
}

#[test]
fn standard_output_is_closed() {
    for capture in captures("closed") {
        failed("standard output is closed", &LISTER.run_with_closed_output(capture));
    }
}
