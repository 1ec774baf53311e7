//! The program `session` beside the independent ledger on generated scripts, line by line.

use compare::program::{file, SESSION};
use compare::scene::{Scene, MOST_CALLS};
use compare::scripts::{long, KINDS};
use compare::sessions::{agree, Coverage};
use compare::Random;
use independent::random::seed;
use std::process::Output;

/// The program with the script in a file.
fn run(what: &str, scene: &Scene) -> Output {
    let script = scene.script(what);
    SESSION.run(file(env!("CARGO_TARGET_TMPDIR"), "generated.script", script.as_bytes()))
}

#[test]
fn generated_scripts() {
    let seed = seed("session, generated scripts");
    let mut coverage = Coverage::default();
    let mut scripts = 0;
    for kind in KINDS {
        for number in 0..kind.count {
            let mut random = Random::numbered(seed, scripts);
            let scene = (kind.make)(number, &mut random);
            assert!(scene.lines.len() <= MOST_CALLS, "{} calls", scene.lines.len());
            let what = format!("{}, number {number}, seed {seed}", kind.what);
            agree(&what, &scene, &run(&what, &scene));
            coverage.script(&scene);
            scripts += 1;
        }
        println!("compared: session, {}: {} scripts agree", kind.what, kind.count);
    }
    for (r, waiting) in long::KINDS {
        let scene = long::all_ids(r, waiting);
        let what = format!("all IDs from {} on, {waiting} waiting", r + 1);
        agree(&what, &scene, &run(&what, &scene));
        coverage.script(&scene);
        println!("compared: session, {what}: a script of {} calls agrees", scene.lines.len());
    }
    assert!(scripts >= 3_000, "{scripts} scripts");
    coverage.report(&format!(
        "{scripts} scripts of up to {MOST_CALLS} calls, and the long ones"
    ));
}

#[test]
fn in_small_writes() {
    let seed = seed("session, small writes");
    for (at, kind) in KINDS.iter().enumerate() {
        let mut random = Random::numbered(seed, at as u64);
        let scene = (kind.make)(at, &mut random);
        let script = scene.script(kind.what);
        for size in [1, 7, 64, 4_096] {
            agree(kind.what, &scene, &SESSION.run_in_writes(script.as_bytes(), size));
        }
        agree(kind.what, &scene, &SESSION.run_in_single_bytes(script.as_bytes()));
    }
    println!("compared: session, a script of each kind agrees in small writes");
}
