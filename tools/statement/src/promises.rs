//! The functions that users call, each held to the promise that docs/ASSURANCE.md names for it: its `ensures` cites every name of its
//! row, each name is a definition's, and it has no `requires`.
//!
//! A row is `` | `crate::function` | `Name`, `Name`: words | .. | ``. It may name several functions, those behind the first by their last
//! part alone; what stands between backquotes in the second cell is a name to be cited.

use crate::functions::{self, Place};
use crate::names::Tree;
use crate::releases::spans;
use crate::{tables, tree};

const HEADER: [&str; 3] = ["Function that users call", "Promise", "Ruled out, for two"];

/// The crates whose public functions all need a row.
const CALLED: [&str; 2] = ["host", "c_api"];

/// Checks every row, and answers how many functions they name.
pub fn check(document: &str, known: &Tree) -> Result<usize, String> {
    let mut held = Vec::new();
    for cells in tables::rows(document, &HEADER) {
        held.extend(row(&cells, known).map_err(|why| format!("docs/ASSURANCE.md, row {}: {why}", cells[0]))?);
    }
    if held.is_empty() {
        return Err(format!("docs/ASSURANCE.md has no row under the header \"{}\"", HEADER[0]));
    }
    CALLED.iter().try_for_each(|name| has_rows(name, &held, known))?;
    Ok(held.len())
}

/// The functions of a row, once each is found to cite what the row names.
fn row(cells: &[&str], known: &Tree) -> Result<Vec<String>, String> {
    if cells.len() != HEADER.len() {
        return Err(format!("{} cells, and not {}", cells.len(), HEADER.len()));
    }
    let (functions, promises) = (functions_in(cells[0]), spans(cells[1]));
    if functions.is_empty() {
        return Err("no function is named".to_string());
    }
    if promises.is_empty() {
        return Err("no promise is named".to_string());
    }
    if let Some(lost) = promises.iter().find(|p| !known.definitions.iter().any(|(_, text)| tree::declares(text, p))) {
        return Err(format!("no file under crates/*/specs/ declares {lost}"));
    }
    functions.iter().try_for_each(|f| keeps(f, &promises, known))?;
    Ok(functions)
}

/// The paths of the functions that a cell names.
fn functions_in(cell: &str) -> Vec<String> {
    let mut paths: Vec<String> = Vec::new();
    for span in spans(cell) {
        let place = paths.last().and_then(|p| p.rsplit_once("::")).filter(|_| !span.contains("::"));
        paths.push(place.map_or(span.to_string(), |(place, _)| format!("{place}::{span}")));
    }
    paths
}

/// The function is there, asks for nothing, and its `ensures` cites each name.
fn keeps(path: &str, promises: &[&str], known: &Tree) -> Result<(), String> {
    let place = Place::of(path).ok_or(format!("{path} names no crate"))?;
    let code = known.code.iter().find(|(file, _)| *file == place.file);
    let (_, code) = code.ok_or(format!("there is no {} for {path}", place.file))?;
    let contract = functions::contract(code, &place)?;
    if !contract.requires.is_empty() {
        return Err(format!("{path} has a `requires`"));
    }
    if contract.ensures.is_empty() {
        return Err(format!("{path} has no `ensures`"));
    }
    let modules = modules_in(code);
    match promises.iter().find(|p| !contract.ensures.iter().any(|e| cites(e, p, &modules))) {
        Some(lost) => Err(format!("the `ensures` of {path} does not cite {lost}")),
        None => Ok(()),
    }
}

/// The names by which a file's code calls modules of definitions: `ghost use Rattle.one.specs.Promises as promise;`.
fn modules_in(code: &str) -> Vec<&str> {
    let uses = code.lines().filter_map(|l| l.strip_prefix("ghost use ")?.trim_end().strip_suffix(';'));
    uses.filter(|u| !u.contains('{')).filter_map(|u| Some(u.split_once(" as ")?.1.trim())).collect()
}

/// Whether a contract's text has a name, bare or behind a module's, `promise.Name`. A field, `r.name`, is no citation. Names end at a
/// space and at the marks that the contract language keeps out of them.
fn cites(text: &str, name: &str, modules: &[&str]) -> bool {
    let words = text.split(|c: char| c.is_whitespace() || "(){};,@\"«»".contains(c));
    words.into_iter().any(|w| match w.rsplit_once('.') {
        Some((of, last)) => last == name && (modules.contains(&of) || of.starts_with("Rattle.")),
        None => w == name,
    })
}

/// Every public function of a crate that users call has a row.
fn has_rows(name: &str, held: &[String], known: &Tree) -> Result<(), String> {
    let folder = format!("crates/{name}/src/");
    let sources: Vec<_> = known.code.iter().filter(|(file, _)| file.starts_with(&folder)).collect();
    if sources.is_empty() {
        return Err(format!("there is no code of the crate {name}, whose functions users call"));
    }
    let has_row = |file: &str, function: &str| held.iter().filter_map(|h| Place::of(h)).any(|p| p.file == file && p.name == function);
    for (file, code) in sources {
        if let Some(lost) = functions::public_in(code).into_iter().find(|f| !has_row(file, f)) {
            return Err(format!("docs/ASSURANCE.md names no promise of {lost}, which users call in {file}"));
        }
    }
    Ok(())
}

#[cfg(test)]
mod tests {
    use super::*;
    use crate::names;

    const HOST: &str = "\
ghost use Rattle.host.specs.Promises as promise;
ghost use Rattle.host.specs.Promises.{Extends as Other};

// Opens. Begins is not promised here.
pub fn open(r: u64) -> Opened
    ensures { promise.Opened result r } // Begins
{
    fresh(r)
}

pub fn poll(x: u64) -> Polled
    ensures first { promise.Polled result x }
    ensures second { promise.Extends (result.Opened)
        x }
{
    x
}

pub(crate) fn inner() {}
";

    const EXPORTED: &str = "\
#[unsafe(no_mangle)]
pub extern \"C\" fn fizrahum_sum(bytes: &[u8]) -> u16
    ensures { result ≡ sum_of bytes.now }
{
    0
}
";

    const ROWS: &str = "\
| `host::open` | `Opened`: the answer | `host/wrong` |
| `host::poll` | `Polled`, `Extends`: the answer | `host/wrong` |
| `c_api::fizrahum_sum` | `sum_of`: the answer | one that answers 0 |
";

    fn checked(rows: &str, host: &str) -> Result<usize, String> {
        let definitions = "pub record Opened (r : ℕ) : Type 0 where\npub record Begins (r : ℕ) : Type 0 where\n\
            abbrev pub Polled : ℕ → Type 0\npub record Extends (r : ℕ) : Type 0 where\nunfoldable pub sum_of : List ℕ → ℕ\n";
        let known = Tree {
            crates: Vec::new(),
            files: Vec::new(),
            code: vec![("crates/host/src/lib.rt".into(), host.to_string()), ("crates/c_api/src/lib.rt".into(), EXPORTED.to_string())],
            definitions: vec![("crates/host/specs/Promises.antt".into(), definitions.to_string())],
        };
        check(&format!("text\n\n| Function that users call | Promise | Ruled out, for two |\n|---|---|---|\n{rows}\n\ntext\n"), &known)
    }

    fn refused(rows: &str, host: &str, why: &str) {
        let said = checked(rows, host).unwrap_err();
        assert!(said.contains(why), "{said}");
    }

    #[test]
    fn functions_that_cite_their_promises() {
        assert_eq!(checked(ROWS, HOST), Ok(3));
    }

    #[test]
    fn the_document_and_the_tree_as_they_are() {
        std::env::set_current_dir(concat!(env!("CARGO_MANIFEST_DIR"), "/../..")).unwrap();
        let known = names::tree().unwrap();
        let held = check(&tree::text("docs/ASSURANCE.md").unwrap(), &known).unwrap();
        assert!(held >= 8, "four calls and four functions for C, and not {held}");
    }

    #[test]
    fn a_function_without_an_ensures() {
        refused(ROWS, &HOST.replace("\n    ensures { promise.Opened result r } // Begins\n{", " {"), "host::open has no `ensures`");
    }

    #[test]
    fn a_promise_that_is_not_cited() {
        refused(&ROWS.replace("`Opened`", "`Opened`, `Begins`"), HOST, "the `ensures` of host::open does not cite Begins");
        refused(ROWS, &HOST.replace("promise.Opened result", "promise.OpenedAs result"), "does not cite Opened");
        refused(&ROWS.replace("`Polled`", "`Opened`"), HOST, "the `ensures` of host::poll does not cite Opened");
        refused(ROWS, &HOST.replace("promise.Extends", "{- promise.Extends -}"), "does not cite Extends");
        refused(ROWS, &HOST.replace("promise.Opened result", "result.Opened"), "does not cite Opened");
    }

    #[test]
    fn a_row_without_a_promise() {
        refused(&ROWS.replace("`Opened`: the answer", "the answer"), HOST, "row `host::open`: no promise is named");
        refused(&ROWS.replace("`Opened`: the answer", ""), HOST, "no promise is named");
    }

    #[test]
    fn a_function_with_a_requires() {
        refused(ROWS, &HOST.replace("Opened\n", "Opened\n    requires { r ≤ 255 }\n"), "host::open has a `requires`");
    }

    #[test]
    fn a_function_without_a_row() {
        let fewer = |name: &str| ROWS.lines().filter(|l| !l.contains(name)).collect::<Vec<_>>().join("\n");
        refused(&fewer("host::poll"), HOST, "names no promise of poll");
        refused(&fewer("c_api::"), HOST, "names no promise of fizrahum_sum");
        let known = Tree { crates: Vec::new(), files: Vec::new(), code: Vec::new(), definitions: Vec::new() };
        assert!(has_rows("host", &[], &known).unwrap_err().contains("no code of the crate host"));
    }

    #[test]
    fn no_table_and_a_table_without_rows() {
        refused("", HOST, "no row under the header");
        refused(&ROWS.replace("| `host", "\n| `host"), HOST, "no row under the header");
    }

    #[test]
    fn a_name_that_no_definition_has() {
        refused(&ROWS.replace("`Opened`", "`Opening`"), &HOST.replace("Opened result", "Opening result"), "specs/ declares Opening");
    }

    #[test]
    fn a_function_that_is_not_there() {
        refused(&ROWS.replace("host::open", "host::opens"), HOST, "no public function opens");
        refused(&ROWS.replace("host::open", "host::inner"), HOST, "no public function inner");
        refused(&ROWS.replace("host::open", "hosts::open"), HOST, "there is no crates/hosts/src/lib.rt");
        refused(&ROWS.replace("host::open", "open"), HOST, "open names no crate");
        refused(&ROWS.replace("`host::open`", "open"), HOST, "no function is named");
        refused("| `host::open` |", HOST, "1 cells");
    }

    #[test]
    fn several_functions_in_a_cell() {
        assert_eq!(functions_in("`a::b::C::d`, `e`; `f::g`, `h`"), ["a::b::C::d", "a::b::C::e", "f::g", "f::h"]);
        refused(&ROWS.replace("`host::open`", "`host::open`, `poll`"), HOST, "the `ensures` of host::poll does not cite Opened");
    }
}
