//! The page itself, and the test that the stored one is current.

use crate::comparisons::{self, Comparisons, EXACT};
use crate::demands::DEMANDS;
use crate::gate::{self, Gate, Refused};
use crate::names::{self, Tree};
use crate::record::{self, Record, PAGE};
use crate::{assumptions, tree};
use std::fmt::Write;

/// How code says that it reads, prints or allocates: what a library that does so assumes of C is counted in the programs above it.
const OVER_C: [&str; 2] = ["std::io", "std::alloc"];
/// The kit's libraries of which the same holds.
const LIBRARIES: [&str; 3] = ["io", "libc", "os"];

/// The page for this build. Refused unless the gate passed on this commit and the tree is still the commit's.
pub fn write() -> Result<String, String> {
    let record = record::of_gate()?;
    record::is_of_tree(&record, &record::head()?, &record::changed()?)?;
    made(&record)
}

/// Whether the stored page is current: all of it but the commit, the kit, the time and how much was kept, which change from run to run.
pub fn is_current() -> Result<String, String> {
    let record = record::of_gate()?;
    let stored = tree::text(PAGE)?;
    let now = made(&record)?;
    let left_out = comparisons::read(&tree::text(".ci/tests.log")?).left_out;
    let same_kit = stored.lines().any(|l| l == format!("kit     {}", record.kit));
    differs(&lasting(&stored, same_kit, left_out), &lasting(&now, same_kit, left_out))?;
    let but = if same_kit { "" } else { "; it was made with another kit, so places of errors are not compared" };
    Ok(format!("{PAGE} is current{but}\n"))
}

/// The first line of the two that differs.
fn differs(stored: &[String], now: &[String]) -> Result<(), String> {
    let at = (0..stored.len().max(now.len())).find(|&i| stored.get(i) != now.get(i));
    let Some(at) = at else { return Ok(()) };
    let none = "(no line)".to_string();
    Err(format!(
        "{PAGE} is not current; it has\n    {}\nand this build has\n    {}\nRun the gate on a commit, then: tools/build-statement >{PAGE}",
        stored.get(at).unwrap_or(&none),
        now.get(at).unwrap_or(&none),
    ))
}

/// The lines that do not change from run to run: without commit, kit, time and what was kept. Places of errors are the kit's to say;
/// comparisons under valgrind are left out where this machine has none.
fn lasting(page: &str, same_kit: bool, left_out: bool) -> Vec<String> {
    let varies = |l: &str| ["commit  ", "kit     ", "time    ", "run     "].iter().any(|w| l.starts_with(w));
    let lines = page.lines().filter(|l| !varies(l) && !(left_out && l.contains(EXACT)));
    lines.map(|l| if same_kit { l.trim_end().to_string() } else { without_place(l.to_string()) }).collect()
}

/// A row of an edit without the place of its first error.
fn without_place(line: String) -> String {
    match line.rfind("  proofs/").or(line.rfind("  specs/")).or(line.rfind("  src/")) {
        Some(at) => line[..at].trim_end().to_string(),
        None => line,
    }
}

fn made(record: &Record) -> Result<String, String> {
    let gate = gate::read(&tree::text(".ci/rt-ci.log")?)?;
    if gate.last != record.passed {
        return Err("the record and the log are not of one gate".to_string());
    }
    let compared = comparisons::read(&tree::text(".ci/tests.log")?);
    let mut page = String::new();
    heading(&mut page, record, &gate);
    demands(&mut page, &gate)?;
    let assurance = tree::text("docs/ASSURANCE.md")?;
    assumptions::check(&assurance, &gate, &compared)?;
    crates(&mut page, &gate, &compared, &Listed { text: &tree::text("crates.txt")?, known: &names::tree()?, assurance: &assurance });
    edits(&mut page, &gate);
    comparisons_in(&mut page, &compared);
    page.push_str("\nWhat is trusted, what is only tested and what is not claimed: docs/ASSURANCE.md.\nKnown faults: docs/RELEASES.md.\n");
    Ok(page)
}

fn heading(page: &mut String, record: &Record, gate: &Gate) {
    let minutes = format!("{} min {} s", record.seconds / 60, record.seconds % 60);
    page.push_str("FIZRAHUM: WHAT IS TRUE OF THIS BUILD\n\n");
    let _ = writeln!(page, "commit  {}", record.commit);
    let _ = writeln!(page, "kit     {}", record.kit);
    let _ = writeln!(page, "time    {minutes} for the gate up to this page");
    let _ = writeln!(page, "gate    {}", record.passed);
    let _ = writeln!(page, "run     {}", wrapped(&gate.done).replace("\n   ", "\nrun     "));
    let _ = writeln!(page, "handles {}", gate.handles);
}

fn demands(page: &mut String, gate: &Gate) -> Result<(), String> {
    page.push_str("\nTHE THREE DEMANDS, each proved for all inputs\n");
    for (i, demand) in DEMANDS.iter().enumerate() {
        demand.is_proved(gate)?;
        let _ = writeln!(page, "\n{}. {}", i + 1, wrapped(demand.sentence));
        for (file, names) in demand.theorems {
            let _ = writeln!(page, "   theorems {} in crates/{file}", names.join(", "));
        }
    }
    Ok(())
}

/// A sentence on lines of at most 110 characters, those behind the first indented.
fn wrapped(sentence: &str) -> String {
    let mut lines = vec![String::new()];
    for word in sentence.split(' ') {
        let last = lines.last_mut().expect("there is a line");
        if last.is_empty() {
            last.push_str(word);
        } else if last.len() + 1 + word.len() <= 110 {
            *last = format!("{last} {word}");
        } else {
            lines.push(word.to_string());
        }
    }
    lines.join("\n   ")
}

/// What the rows of the crates are made from, beside the logs.
struct Listed<'a> {
    /// `crates.txt`.
    text: &'a str,
    known: &'a Tree,
    assurance: &'a str,
}

fn crates(page: &mut String, gate: &Gate, compared: &Comparisons, listed: &Listed) {
    let functions = |name: &str| listed.known.functions_of(name).len();
    let all: usize = gate.crates.iter().map(|c| functions(&c.name)).sum();
    let _ = writeln!(page, "\nCRATES: {} proved, {all} functions; assumed contracts of C functions\n", gate.crates.len());
    // in the order of crates.txt: the log's is that in which they were done
    for name in listed.text.lines().filter_map(name_in) {
        if gate.of(name).is_err() {
            continue;
        }
        let kind = if gate.programs.iter().any(|p| p == name) { "program" } else { "library" };
        let functions = format!("{} function{}", functions(name), if functions(name) == 1 { "" } else { "s" });
        let _ = writeln!(page, "{name:<20} {kind} {functions:>13}  {}", assumed(name, gate, listed));
    }
    for (name, n) in &compared.archives {
        let _ = writeln!(page, "{name:<20} archive for C           {n} assumed");
    }
}

/// `app may_wait=2: low`: the crate that a line of crates.txt names.
fn name_in(line: &str) -> Option<&str> {
    let line = line.split('#').next().unwrap_or(line);
    line.split_once(':')?.0.split_whitespace().next()
}

/// What a crate assumes, in words.
fn assumed(name: &str, gate: &Gate, listed: &Listed) -> String {
    let table = assumptions::table(listed.assurance);
    match table.iter().find(|(n, _)| n == name).filter(|_| gate.programs.iter().any(|p| p == name)) {
        Some((_, words)) => match words.split_once(": ") {
            Some((total, parts)) => format!("{total} assumed: {parts}"),
            None => format!("{words} assumed"),
        },
        None if reaches_c(name, listed.text, listed.known) => "counted in the programs above it".to_string(),
        None => "0 assumed".to_string(),
    }
}

/// Whether a crate's code reads, prints or allocates, its own or that of another crate which it uses.
fn reaches_c(name: &str, listed: &str, known: &Tree) -> bool {
    let folder = format!("crates/{name}/src/");
    if known.code.iter().any(|(file, code)| file.starts_with(&folder) && OVER_C.iter().any(|w| code.contains(w))) {
        return true;
    }
    let line = listed.lines().find(|l| name_in(l) == Some(name)).and_then(|l| l.split_once(':'));
    line.map_or("", |(_, uses)| uses).split_whitespace().any(|d| LIBRARIES.contains(&d) || reaches_c(d, listed, known))
}

fn edits(page: &mut String, gate: &Gate) {
    let _ = writeln!(page, "\nMUST-FAIL EDITS: {} refused, each with the place of the first error\n", gate.edits.len());
    let mut edits: Vec<_> = gate.edits.iter().collect();
    edits.sort_by_key(|e| &e.name);
    for e in edits {
        let place = e.place.as_deref().unwrap_or("(no place named)");
        let by = match e.by {
            Refused::Fact => "",
            Refused::Names => ", only because a proof names what is gone",
            Refused::Limit => ", only by a limit of the prover",
        };
        let _ = writeln!(page, "{:<58}  {place}{by}", e.name);
    }
}

fn comparisons_in(page: &mut String, compared: &Comparisons) {
    page.push_str("\nCOMPARISONS that agreed: tested, and not proved\n\n");
    for line in &compared.agreed {
        let _ = writeln!(page, "{line}");
    }
    page.push_str("\nSEEDS of what was generated\n\n");
    for line in &compared.seeds {
        let _ = writeln!(page, "{line}");
    }
}

#[cfg(test)]
mod tests {
    use super::*;

    const PAGE: &str = "A\n\ncommit  abc\nkit     k\ntime    1 min 2 s for the gate\ngate    4 passed, 0 failed\n\
        run     every proof was done in this run\n\
        one                  library   3 functions  0 assumed\none/wrong   proofs/f/Answers.antt:9:84\n\
        reader, exact heap buffers: 5 agree\n";

    #[test]
    fn times_commit_and_kit_may_change() {
        let other = PAGE.replace("commit  abc", "commit  abd").replace("1 min 2 s", "2 min").replace("every proof was", "1 of the 2 proofs was");
        assert_eq!(lasting(PAGE, true, false), lasting(&other, true, false));
    }

    #[test]
    fn what_is_proved_may_not_change_unseen() {
        for (old, new) in [("3 functions", "4 functions"), ("0 assumed", "1 assumed"), ("one/wrong", "one/other"), (":9:84", ":9:85"),
            ("4 passed", "5 passed"), ("5 agree", "6 agree")] {
            let other = PAGE.replace(old, new);
            assert!(differs(&lasting(PAGE, true, false), &lasting(&other, true, false)).is_err(), "{old}");
        }
    }

    #[test]
    fn places_are_of_the_kit() {
        let other = PAGE.replace(":9:84", ":9:85");
        assert_eq!(lasting(PAGE, false, false), lasting(&other, false, false));
        let another = PAGE.replace("one/wrong", "one/other");
        assert_ne!(lasting(PAGE, false, false), lasting(&another, false, false));
    }

    #[test]
    fn what_valgrind_would_say_is_left_out_with_it() {
        let other = PAGE.replace("reader, exact heap buffers: 5 agree\n", "");
        assert_eq!(lasting(PAGE, true, true), lasting(&other, true, true));
        assert_ne!(lasting(PAGE, true, false), lasting(&other, true, false));
    }

    #[test]
    fn a_missing_line_is_told() {
        assert!(differs(&["a".into()], &[]).unwrap_err().contains("(no line)"));
    }

    #[test]
    fn long_sentences_are_wrapped() {
        assert_eq!(wrapped("short"), "short");
        let long = "word ".repeat(30).trim_end().to_string();
        let lines: Vec<String> = wrapped(&long).lines().map(|l| l.trim().to_string()).collect();
        assert_eq!(lines.len(), 2);
        assert_eq!(lines.join(" "), long);
    }

    fn tree_of(code: &[(&str, &str)]) -> Tree {
        let code = code.iter().map(|(file, text)| (file.to_string(), text.to_string())).collect();
        Tree { crates: Vec::new(), files: Vec::new(), code, definitions: Vec::new() }
    }

    #[test]
    fn reach_of_c() {
        let listed = "low:\nmid: low\ntop staticlib: mid # below all\nmiddle: low\nlast: low io\n";
        let known = tree_of(&[("crates/mid/src/lib.rt", "use std::io;\n"), ("crates/middle/src/lib.rt", "fn f() {}\n")]);
        assert!(["mid", "top", "last"].iter().all(|name| reaches_c(name, listed, &known)));
        assert!(!reaches_c("low", listed, &known) && !reaches_c("middle", listed, &known));
    }

    #[test]
    fn rows_of_crates() {
        let gate = gate::read(gate::tests::LOG).unwrap();
        let code = [("crates/one/src/lib.rt", "fn f() {}\nfn g() {}\n"), ("crates/shown/src/main.rt", "fn main() {}\n")];
        let assurance = "| Program or archive | Assumed |\n|---|---|\n| `shown` | 7: 6 of `libc`, `os::f` |\n";
        let listed = Listed { text: "# NAME: uses\none:\nlow:\nshown: one\n", known: &tree_of(&code), assurance };
        let mut page = String::new();
        crates(&mut page, &gate, &Comparisons::default(), &listed);
        let rows: Vec<&str> = page.lines().skip(3).collect();
        assert_eq!(page.lines().nth(1), Some("CRATES: 3 proved, 3 functions; assumed contracts of C functions"));
        assert_eq!(rows[0], "one                  library   2 functions  0 assumed");
        assert_eq!(rows[2], "shown                program    1 function  7 assumed: 6 of libc, os::f");
    }
}
