//! The program `lister` beside the independent listing: document 01's example, and generated captures.

use compare::captures::{groups, Group};
use compare::listings::Tally;
use compare::program::{file, LISTER};
use compare::Random;
use independent::examples::example_of_the_lister;
use independent::listing::listing;
use std::process::Output;

/// The program with the capture in a file.
fn list_file(name: &str, capture: &[u8]) -> Output {
    LISTER.run(file(env!("CARGO_TARGET_TMPDIR"), name, capture))
}

#[test]
fn the_example_of_document_01() {
    let output = list_file("document-01.capture", &example_of_the_lister());
    assert_eq!(String::from_utf8_lossy(&output.stdout), "items\nACK 0 0\nend 17\n");
}

#[test]
fn generated_captures() {
    let mut random = Random::seeded("lister, generated captures");
    let mut tally = Tally::default();
    for Group { what, captures } in groups(&mut random) {
        for capture in &captures {
            tally.agree(capture, &list_file("generated.capture", capture));
        }
        println!("compared: lister, {what}: {} captures agree", captures.len());
    }
    // the last number is every count that a line can hold
    let least = [5_000, 5_000, 5_000, 5_000, 10_000, 2_000, 1_000];
    tally.report("generated captures", least, 266);
}

#[test]
fn in_small_writes() {
    let mut random = Random::seeded("lister, small writes");
    let mut tally = Tally::default();
    for Group { captures, .. } in groups(&mut random) {
        for capture in [0, captures.len() / 2, captures.len() - 1].map(|place| &captures[place]) {
            for size in [1, 7, 64, 265] {
                tally.agree(capture, &LISTER.run_in_writes(capture, size));
            }
            tally.agree(capture, &LISTER.run_in_single_bytes(capture));
        }
    }
    tally.report("small writes", [500, 500, 500, 500, 500, 500, 25], 5);
}

/// Document 01's "statement about cuts", for the independent listing itself.
#[test]
fn in_pieces() {
    const SIZES: [usize; 5] = [1, 2, 7, 64, 265];
    let mut random = Random::seeded("lister, captures in pieces");
    let captures: Vec<Vec<u8>> = groups(&mut random)
        .into_iter()
        .flat_map(|group| group.captures)
        .collect();
    for capture in &captures {
        let whole = listing([&capture[..]]);
        for size in SIZES {
            assert!(
                listing(capture.chunks(size)) == whole,
                "pieces of {size}: {capture:02x?}"
            );
        }
    }
    println!(
        "compared: lister, {} captures are listed alike whole and in pieces of {SIZES:?}",
        captures.len()
    );
}
