//! The assurance's table: each row has its rule, definition, promise, proof and edit, and each of these names what is there.
//!
//! A definition or a proof is `` `CRATE/proofs/File.antt`: `name`, `name` ``, entries parted by `; `. A promise is a function,
//! `` `crate::module::function` ``, or the same form as a proof. The proof of a function itself is the file that has what was written of
//! it, `` `crate/proofs/module/function/Answers.antt` `` (or `Invariants.antt`), and where there is none
//! `` `crate::module::function` ``, found by the check; the gate proved that function. An edit is `` `CRATE/label` ``, or a test's file,
//! `` `tests/..` ``.

use crate::functions::Place;
use crate::gate::Gate;
use crate::releases::spans;
use crate::{tables, tree};

const HEADER: [&str; 5] = ["Rule", "Definition", "Promise", "Proof", "Edit"];

/// Words behind a function whose proof has no file.
const FOUND: &str = "found by the check";

/// The files that a function's own folder has of its proof.
const WRITTEN: [&str; 3] = ["Answers.antt", "Invariants.antt", "Proof.antt"];

/// Checks every row of every table with that header, and answers how many there are.
pub fn check(document: &str, gate: &Gate) -> Result<usize, String> {
    let rows = tables::rows(document, &HEADER);
    for cells in &rows {
        row(cells, gate).map_err(|why| format!("docs/ASSURANCE.md, row {}: {why}", cells[0]))?;
    }
    match rows.len() {
        0 => Err("docs/ASSURANCE.md has no row with the five columns".to_string()),
        n => Ok(n),
    }
}

fn row(cells: &[&str], gate: &Gate) -> Result<(), String> {
    if cells.len() != HEADER.len() {
        return Err(format!("{} cells, and not {}", cells.len(), HEADER.len()));
    }
    if let Some(at) = cells.iter().position(|c| c.is_empty()) {
        return Err(format!("no {}", HEADER[at].to_lowercase()));
    }
    for cell in &cells[1..4] {
        for entry in cell.split("; ") {
            names_what_is_there(entry)?;
        }
    }
    for entry in cells[3].split("; ") {
        is_proved(entry, gate)?;
    }
    let edits = spans(cells[4]);
    if edits.is_empty() {
        return Err("the last cell names no edit".to_string());
    }
    let tried = gate.refused();
    let lost = edits.iter().find(|e| !tried.iter().any(|t| t == *e) && !(e.starts_with("tests/") && tree::exists(e)));
    lost.map_or(Ok(()), |e| Err(format!("the gate tries no edit {e}")))
}

/// A file with names that it declares, or a function.
fn names_what_is_there(entry: &str) -> Result<(), String> {
    let spans = spans(entry);
    let Some((first, rest)) = spans.split_first() else {
        return Err(format!("an entry that names nothing: {entry}"));
    };
    if first.contains("::") {
        return spans.iter().try_for_each(|f| is_function(f));
    }
    let path = if first.starts_with("tests/") { first.to_string() } else { tree::in_crates(first).1 };
    if !tree::exists(&path) {
        return Err(format!("there is no {path}"));
    }
    if rest.is_empty() {
        return Ok(());
    }
    let text = tree::text(&path)?;
    match rest.iter().find(|n| !tree::declares(&text, n) && !(path.ends_with(".rt") && tree::has_word(&text, n))) {
        Some(lost) => Err(format!("{path} does not declare {lost}")),
        None => Ok(()),
    }
}

/// `crate::function`, `crate::module::function`, `crate::module::Type::function`. A method may stand in any file of its crate.
fn is_function(path: &str) -> Result<(), String> {
    let place = Place::of(path);
    let is_in = |file: &str| place.as_ref().is_some_and(|p| tree::text(file).is_ok_and(|code| p.is_in(&code)));
    let others = place.as_ref().filter(|p| p.is_method()).map_or(Vec::new(), |p| tree::beside(&p.file));
    if place.as_ref().is_some_and(|p| is_in(&p.file)) || others.iter().any(|file| is_in(file)) {
        return Ok(());
    }
    Err(format!("there is no function {path}"))
}

/// The gate proved the crate of a proof's file, and the function whose own proof the entry is. One without a file says who found it.
fn is_proved(entry: &str, gate: &Gate) -> Result<(), String> {
    let spans = spans(entry);
    let first = spans.first().copied().unwrap_or_default();
    if first.starts_with("tests/") {
        return Ok(());
    }
    if first.contains("::") {
        if !entry.contains(FOUND) {
            return Err(format!("the proof of {first} is a file, or {FOUND}: {entry}"));
        }
        return spans.iter().try_for_each(|path| is_found(path, gate));
    }
    gate.of(tree::in_crates(first).0)?;
    match function_of(first) {
        Some(path) => is_function(&path).and_then(|()| gate.proves(&path)),
        None => Ok(()),
    }
}

/// The gate proved a function of whose proof nothing is written.
fn is_found(path: &str, gate: &Gate) -> Result<(), String> {
    let (name, inside) = path.split_once("::").unwrap_or((path, ""));
    let folder = format!("crates/{name}/proofs/{}", inside.replace("::", "/"));
    gate.proves(path)?;
    match WRITTEN.iter().find(|file| tree::exists(&format!("{folder}/{file}"))) {
        Some(file) => Err(format!("{path} has {folder}/{file}, which is to be named")),
        None => Ok(()),
    }
}

/// The function whose own proof a file is: `one/proofs/two/f/Answers.antt` is that of `one::two::f`.
fn function_of(path: &str) -> Option<String> {
    let (folder, file) = path.rsplit_once('/')?;
    let (name, inside) = folder.split_once("/proofs/")?;
    WRITTEN.contains(&file).then(|| format!("{name}::{}", inside.replace('/', "::")))
}

#[cfg(test)]
mod tests {
    use super::*;
    use crate::gate::{Checked, Crate, Edit, Refused};

    fn at_the_top() {
        std::env::set_current_dir(concat!(env!("CARGO_MANIFEST_DIR"), "/../..")).unwrap();
    }

    fn gate(functions: &[&str]) -> Gate {
        let functions = functions.iter().map(|f| f.to_string()).collect();
        let checked = Some(Checked { functions, assumed: Vec::new() });
        let tried = Edit { name: "checksum/another-start".into(), place: None, by: Refused::Fact };
        let crates = vec![Crate { name: "checksum".into(), checked }, Crate { name: "message".into(), checked: None }];
        Gate { crates, edits: vec![tried], ..Gate::default() }
    }

    fn checked_by(gate: &Gate, row: &str) -> Result<usize, String> {
        at_the_top();
        check(&format!("| Rule | Definition | Promise | Proof | Edit |\n|---|---|---|---|---|\n{row}\n\ntext\n"), gate)
    }

    fn checked(row: &str) -> Result<usize, String> {
        checked_by(&gate(&["checksum::checksum"]), row)
    }

    const ROW: &str = "| \"start 0xFFFF\" | `checksum/specs/Checksum.antt`: `start` | `checksum::checksum` | \
        `checksum/proofs/Laws.antt`: `checksum_below` | `checksum/another-start` |";

    #[test]
    fn a_row_that_is_right() {
        assert_eq!(checked(ROW), Ok(1));
    }

    #[test]
    fn an_entry_that_is_empty_or_names_nothing() {
        assert!(checked(&ROW.replace("`checksum::checksum`", "")).unwrap_err().contains("no promise"));
        assert!(checked(&ROW.replace("`checksum::checksum`", "the same")).unwrap_err().contains("names nothing"));
        assert!(checked(&ROW.replace("`checksum/another-start`", "-")).is_err());
    }

    #[test]
    fn a_name_that_is_not_there() {
        assert!(checked(&ROW.replace("`start`", "`starts`")).unwrap_err().contains("does not declare starts"));
        assert!(checked(&ROW.replace("checksum::checksum", "checksum::checksums")).unwrap_err().contains("no function"));
        assert!(checked(&ROW.replace("`checksum::checksum`", "`checksum::checksum`, `checksum`")).unwrap_err().contains("no function checksum"));
        assert!(checked(&ROW.replace("proofs/Laws", "proofs/Lawz")).unwrap_err().contains("there is no"));
        assert!(checked(&ROW.replace("another-start", "another-end")).unwrap_err().contains("no edit"));
    }

    #[test]
    fn a_cell_too_few_and_no_table() {
        assert!(checked("| a | b |").unwrap_err().contains("2 cells"));
        assert!(check("no table\n", &gate(&[])).is_err());
    }

    #[test]
    fn a_file_is_the_proof_of_its_function() {
        assert_eq!(function_of("one/proofs/f/Answers.antt").as_deref(), Some("one::f"));
        assert_eq!(function_of("one/proofs/two/Type/f/Invariants.antt").as_deref(), Some("one::two::Type::f"));
        assert_eq!((function_of("one/proofs/Laws.antt"), function_of("one/proofs/f/Laws.antt")), (None, None));
        let laws = "`checksum/proofs/Laws.antt`: `checksum_below`";
        at_the_top();
        let folder = "crates/checksum/proofs/checksum";
        let file = WRITTEN.iter().find(|file| tree::exists(&format!("{folder}/{file}"))).expect("the loop's invariant is written");
        let row = ROW.replace(laws, &format!("`checksum/proofs/checksum/{file}`"));
        assert_eq!(checked(&row), Ok(1));
        assert!(checked_by(&gate(&[]), &row).unwrap_err().contains("did not prove the function checksum::checksum"));
        let found = ROW.replace(laws, "`checksum::checksum`, found by the check");
        assert!(checked(&found).unwrap_err().contains(&format!("has {folder}/{file}, which is to be named")));
    }

    #[test]
    fn a_proof_that_the_check_found() {
        let laws = "`checksum/proofs/Laws.antt`: `checksum_below`";
        let found = ROW.replace(laws, "`message::header::total_length`, found by the check");
        assert_eq!(checked(&found), Ok(1));
        assert!(checked(&found.replace(", found by the check", "")).unwrap_err().contains("is a file, or found by the check"));
        let method = ROW.replace("`checksum::checksum`", "`command::Fields::is_answered_by`, `command::matching::Fields::is_answered_by`");
        assert_eq!(checked(&method), Ok(1));
        assert!(checked(&found.replace("total_length", "length")).unwrap_err().contains("no function"));
        assert!(checked(&ROW.replace(laws, "`audit::seen::mark`, found by the check")).unwrap_err().contains("did not prove the crate audit"));
        assert!(checked(&ROW.replace(laws, "`audit/proofs/Laws.antt`")).unwrap_err().contains("did not prove the crate audit"));
    }
}
