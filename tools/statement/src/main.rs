//! What is true of a build: `tools/build-statement` and `tools/check-documents` run this. No dependency.
//!
//! It reads what the gate left in `.ci/` (`gate.record`, `rt-ci.log`, `tests.log`) and the tree itself, and decides nothing that
//! the gate did not decide.

mod assumptions;
mod assurance;
mod comparisons;
mod demands;
mod functions;
mod gate;
mod headings;
mod names;
mod page;
mod promises;
mod record;
mod releases;
mod tables;
mod tree;

use std::process::ExitCode;

const USAGE: &str = "usage: statement page | current | documents";

fn main() -> ExitCode {
    let words: Vec<String> = std::env::args().skip(1).collect();
    let words: Vec<&str> = words.iter().map(String::as_str).collect();
    let done = match words[..] {
        ["page"] => page::write(),
        ["current"] => page::is_current(),
        ["documents"] => documents(),
        _ => Err(USAGE.to_string()),
    };
    match done {
        Ok(text) => {
            print!("{text}");
            ExitCode::SUCCESS
        }
        Err(why) => {
            eprintln!("REFUSED: {why}");
            ExitCode::FAILURE
        }
    }
}

/// The release list, the assurance's tables and the names in documents, held to the tree and to the edits that the gate tried.
fn documents() -> Result<String, String> {
    let gate = gate::read(&tree::text(".ci/rt-ci.log")?)?;
    let compared = comparisons::read(&tree::text(".ci/tests.log").unwrap_or_default());
    let releases = releases::check(&tree::text("docs/RELEASES.md")?, &gate.refused())?;
    let assurance = tree::text("docs/ASSURANCE.md")?;
    let rows = assurance::check(&assurance, &gate)?;
    assumptions::check(&assurance, &gate, &compared)?;
    let known = names::tree()?;
    known.is_proved(&gate)?;
    let names = names::check(&known)?;
    let functions = names::covers(&known, &tree::text("docs/ARCHITECTURE.md")?, &assurance)?;
    let promised = promises::check(&assurance, &known)?;
    Ok(format!(
        "documents: {releases} faults of docs/RELEASES.md, {rows} rows of docs/ASSURANCE.md and {names} names in documents are right; \
         {functions} public functions are named, and the {promised} that users call cite their promises\n"
    ))
}
