//! What the program `session` prints beside the independent ledger, and a count of what was met.

use crate::scene::{Line, Scene};
use std::process::Output;

mod coverage;

pub use coverage::Coverage;

/// The program must have ended well, with nothing on standard error and with the answers of the independent ledger
/// byte for byte.
pub fn agree(what: &str, scene: &Scene, output: &Output) {
    let (found, said) = [&output.stdout, &output.stderr]
        .map(|text| String::from_utf8_lossy(text))
        .into();
    let wanted = scene.answers();
    assert!(
        output.status.success() && said.is_empty() && *found == *wanted,
        "{what}: {}, standard error {said:?}\n{}",
        output.status,
        first_difference(scene, &found)
    );
}

/// The script up to the call where the two part, and both answers.
fn first_difference(scene: &Scene, found: &str) -> String {
    const MOST: usize = 200;
    let found: Vec<&str> = found.lines().collect();
    let differs = |(at, line): (usize, &Line)| found.get(at) != Some(&&line.answer[..]);
    let at = scene
        .lines
        .iter()
        .enumerate()
        .position(differs)
        .unwrap_or(scene.lines.len());
    let calls = scene.lines.iter().map(|line| &line.call[..]);
    let calls: Vec<&str> = calls.take(at + 1).skip((at + 1).saturating_sub(MOST)).collect();
    format!(
        "{}\ncall {} of {}: the program answers {:?}, the independent ledger {:?}",
        calls.join("\n"),
        at + 1,
        scene.lines.len(),
        found.get(at),
        scene.lines.get(at).map(|line| &line.answer)
    )
}
