//! What `rt ci` said: each crate proved, each edit refused, each program run, and the last line.
//!
//! Of a crate that it checks in this run the log has the prover's own words: each function proved, and how many contracts of C functions
//! the check reached. Of a crate that an earlier run on this machine passed, with the same files over the same libraries, it has one line.

use crate::functions;

/// What the prover said of a crate that this run checked.
#[derive(Clone, Debug, Default, PartialEq)]
pub struct Checked {
    /// The paths of the functions proved.
    pub functions: Vec<String>,
    /// The contracts of C functions that are assumed, those that the check reached: for each library that declares some their number, and
    /// their names, or `N of LIBRARY` where the prover names the first ones alone. A library's check counts none; a program or an
    /// archive that links it counts what is reached.
    pub assumed: Vec<(usize, String)>,
}

#[derive(Clone, Debug, PartialEq)]
pub struct Crate {
    pub name: String,
    /// None where an earlier run proved it.
    pub checked: Option<Checked>,
}

/// Why an edit was refused: a fact that fails, or less than that.
#[derive(Clone, Copy, Debug, PartialEq)]
pub enum Refused {
    Fact,
    /// A proof file names what the edit took away, and nothing else fails.
    Names,
    /// The prover came to a limit of its own.
    Limit,
}

#[derive(Clone, Debug, PartialEq)]
pub struct Edit {
    /// `CRATE/LABEL`.
    pub name: String,
    /// The place of the first error, in the edited crate, where the prover names one.
    pub place: Option<String>,
    pub by: Refused,
}

#[derive(Clone, Debug, Default)]
pub struct Gate {
    pub crates: Vec<Crate>,
    pub edits: Vec<Edit>,
    pub programs: Vec<String>,
    /// What `rt: ok` says of handles: `none`, or the words allowed.
    pub handles: String,
    /// What `rt: ok` says of how much was done in this run.
    pub done: String,
    /// `N passed, 0 failed`.
    pub last: String,
}

impl Gate {
    /// The names of the edits that the prover refused.
    pub fn refused(&self) -> Vec<String> {
        self.edits.iter().map(|e| e.name.clone()).collect()
    }

    /// The crate of this name, proved.
    pub fn of(&self, name: &str) -> Result<&Crate, String> {
        self.crates.iter().find(|c| c.name == name).ok_or(format!("the gate did not prove the crate {name}"))
    }

    /// Whether the function of this path is proved: its crate is, and where this run checked that, the prover named the function.
    pub fn proves(&self, path: &str) -> Result<(), String> {
        let checked = &self.of(path.split("::").next().unwrap_or(path))?.checked;
        match checked {
            Some(checked) if !checked.functions.iter().any(|f| functions::is_same(f, path)) => Err(format!("the gate did not prove the function {path}")),
            _ => Ok(()),
        }
    }
}

/// Reads the log. A log that does not end in `N passed, 0 failed`, whose lines are not those N, or that has a bad edit is refused.
pub fn read(log: &str) -> Result<Gate, String> {
    let mut gate = Gate::default();
    let mut checked = Checked::default();
    let mut has_verdict = false;
    let mut refused = None;
    for line in log.lines() {
        if line.starts_with("== ") {
            (checked, has_verdict) = (Checked::default(), false);
        } else if let Some(path) = function_in(line) {
            checked.functions.push(path);
        } else if let Some(rest) = line.strip_prefix("axioms ") {
            checked.assumed.extend(assumed_in(rest));
        } else if line.starts_with("logic=proved ") {
            has_verdict = true;
        } else if let Some(rest) = line.strip_prefix("rt: must-fail ") {
            gate.edits.extend(edit_in(rest));
        } else if let Some(rest) = line.strip_prefix("rt: ok; ") {
            refused = Some(summary_in(rest, &mut gate)?);
        } else if let Some(name) = line.strip_prefix("rt: ").and_then(|l| l.strip_suffix(" proved")).filter(|n| !n.contains(' ')) {
            if !has_verdict {
                return Err(format!("the log has no verdict before: {line}"));
            }
            gate.crates.push(Crate { name: name.to_string(), checked: Some(std::mem::take(&mut checked)) });
            has_verdict = false;
        } else if let Some(name) = kept_in(line) {
            gate.crates.push(Crate { name, checked: None });
        } else if let Some(name) = ran_in(line).filter(|n| !gate.programs.contains(n)) {
            gate.programs.push(name);
        }
    }
    gate.last = log.lines().last().unwrap_or("").to_string();
    agrees(gate, refused)
}

/// The log's own lines are as many as its last line and `rt: ok` count, and none failed.
fn agrees(gate: Gate, refused: Option<usize>) -> Result<Gate, String> {
    let counted = gate.last.strip_suffix(" passed, 0 failed").and_then(|n| n.parse::<usize>().ok());
    let found = gate.crates.len() + gate.edits.len();
    match counted {
        None => Err(format!("the gate did not pass: the last line of rt ci is \"{}\"", gate.last)),
        Some(n) if n != found => Err(format!("the log counts {n} passed, and has {found} crates and edits")),
        Some(_) if refused.is_none() => Err("the log has no line \"rt: ok\"".to_string()),
        Some(_) if refused != Some(gate.edits.len()) => {
            Err(format!("rt: ok counts {} edits refused, and the log has {}", refused.unwrap_or(0), gate.edits.len()))
        }
        Some(_) => Ok(gate),
    }
}

/// `handles allowed: none; must-fail edits: 2 refused, 1 bad; every proof and must-fail edit was done in this run`: the edits refused.
fn summary_in(rest: &str, gate: &mut Gate) -> Result<usize, String> {
    let mut refused = 0;
    for part in rest.split("; ") {
        if let Some(handles) = part.strip_prefix("handles allowed: ") {
            gate.handles = handles.to_string();
        } else if let Some(edits) = part.strip_prefix("must-fail edits: ") {
            refused = number_before(edits, " refused").ok_or(format!("rt: ok has no number of edits refused: {edits}"))?;
            let bad = edits.split(", ").find(|p| p.ends_with(" bad"));
            if let Some(bad) = bad.filter(|b| *b != "0 bad") {
                return Err(format!("rt ci has bad must-fail edits, which show nothing: {bad}"));
            }
        } else if !gate.done.is_empty() {
            gate.done = format!("{}; {part}", gate.done);
        } else {
            gate.done = part.to_string();
        }
    }
    Ok(refused)
}

/// `fn one::f: proved`, also with words behind it.
fn function_in(line: &str) -> Option<String> {
    let (path, said) = line.strip_prefix("fn ")?.split_once(": ")?;
    said.split(',').next().is_some_and(|s| s == "proved").then(|| path.to_string())
}

/// `libc: libc::read, libc::write (2 of the 128 declared)`, also with `...` for some names, or `os: none reached of the 22 declared`.
fn assumed_in(rest: &str) -> Option<(usize, String)> {
    let (library, names) = rest.split_once(": ")?;
    let (names, count) = names.rsplit_once(" (")?;
    let count = count.split(' ').next()?.parse().ok()?;
    Some((count, if names.ends_with("...") { format!("{count} of {library}") } else { names.to_string() }))
}

/// `rt: NAME is kept: an earlier run on this machine proved the same files over the same libraries`.
fn kept_in(line: &str) -> Option<String> {
    let (name, rest) = line.strip_prefix("rt: ")?.split_once(" is kept: ")?;
    rest.contains("proved the same files over the same libraries").then(|| name.to_string())
}

/// `rt: NAME ran, and wrote what its file stdout has`, once for each of the two compilers.
fn ran_in(line: &str) -> Option<String> {
    let (name, rest) = line.strip_prefix("rt: ")?.split_once(" ran")?;
    rest.contains("wrote what its file stdout has").then(|| name.to_string())
}

/// `NAME/LABEL.edit: refused, as it must be: ./proofs/x/Answers.antt:9:84: error: ..`; also with why that shows less, in brackets.
fn edit_in(rest: &str) -> Option<Edit> {
    let (name, rest) = rest.split_once(".edit: refused, as it must be")?;
    let by = match rest {
        _ if rest.starts_with(" (only because a proof file names") => Refused::Names,
        _ if rest.starts_with(" (only by a limit") => Refused::Limit,
        _ => Refused::Fact,
    };
    let said = if by == Refused::Fact { rest.strip_prefix(": ") } else { rest.split_once("): ").map(|(_, said)| said) };
    Some(Edit { name: name.to_string(), place: said.and_then(place_in), by })
}

/// `./proofs/x/Answers.antt:9:84: error: ..` stands at `proofs/x/Answers.antt:9:84`; a note, behind the word `note: `, as well.
fn place_in(said: &str) -> Option<String> {
    let said = said.strip_prefix("note: ").unwrap_or(said);
    let place = said.split(": ").next()?;
    let mut parts = place.trim_start_matches("./").rsplitn(3, ':');
    let (column, line, path) = (parts.next()?, parts.next()?, parts.next()?);
    let is_number = |text: &str| !text.is_empty() && text.chars().all(|c| c.is_ascii_digit());
    (is_number(column) && is_number(line) && !path.contains(' ')).then(|| format!("{path}:{line}:{column}"))
}

fn number_before(text: &str, word: &str) -> Option<usize> {
    text[..text.find(word)?].rsplit(' ').next()?.parse().ok()
}

#[cfg(test)]
pub mod tests {
    use super::*;

    pub const LOG: &str = "\
== one
fn one::f: proved
fn one::g: proved, may abort
fn one::h: proved
logic=proved functions=3 sum=0 native=nat
rt: one proved
rt: one: trying its must-fail edits (2)
rt: low is kept: an earlier run on this machine proved the same files over the same libraries
== shown
fn shown::main: proved
axioms libc: libc::heap::rattle_alloc, libc::heap::rattle_dealloc, ... (6 of the 128 declared)
axioms os: os::c::rattle_errno (1 of the 22 declared)
axioms std: none reached of the 2 declared
logic=proved functions=1 axioms=7 target=x sum=0
linked target=x loader=y files=out/shown.o
rt: shown proved
rt: must-fail one/wrong.edit: refused, as it must be: ./proofs/f/Answers.antt:9:84: error: `returns`: expected type `x`
rt: must-fail one/other.edit: refused, as it must be
rt: shown ran, and wrote what its file stdout has
rt: shown ran (built by Rattle's own compiler), and wrote what its file stdout has
rt: ok; handles allowed: none; must-fail edits: 2 refused; done in this run: 2 of the 3 proofs; the others are kept
5 passed, 0 failed
";

    #[test]
    fn a_log_that_passed() {
        let gate = read(LOG).unwrap();
        let functions = ["one::f", "one::g", "one::h"].map(str::to_string).to_vec();
        assert_eq!(gate.crates[0], Crate { name: "one".into(), checked: Some(Checked { functions, assumed: Vec::new() }) });
        let shown = gate.crates[2].checked.as_ref().unwrap();
        assert_eq!(shown.functions, ["shown::main"]);
        assert_eq!(shown.assumed, [(6, "6 of libc".to_string()), (1, "os::c::rattle_errno".to_string())]);
        assert_eq!(gate.edits[0].place.as_deref(), Some("proofs/f/Answers.antt:9:84"));
        assert_eq!((gate.edits[1].place.clone(), gate.edits[1].by), (None, Refused::Fact));
        assert_eq!(gate.programs, ["shown"]);
        assert_eq!(gate.refused(), ["one/wrong", "one/other"]);
        assert_eq!((gate.handles.as_str(), gate.done.as_str()), ("none", "done in this run: 2 of the 3 proofs; the others are kept"));
    }

    #[test]
    fn a_crate_that_an_earlier_run_proved() {
        let gate = read(LOG).unwrap();
        assert_eq!(gate.crates[1], Crate { name: "low".into(), checked: None });
        assert_eq!((gate.proves("low::f"), gate.proves("one::f")), (Ok(()), Ok(())));
        assert!(gate.proves("one::i").unwrap_err().contains("the function one::i"));
        assert!(gate.proves("two::f").unwrap_err().contains("the crate two"));
    }

    #[test]
    fn the_place_of_a_first_error() {
        let of = |rest: &str| edit_in(&format!("one/wrong.edit: refused, as it must be{rest}")).unwrap();
        assert_eq!(of(": proofs/f/Answers.antt:9:84: error: `x`: differs").place.as_deref(), Some("proofs/f/Answers.antt:9:84"));
        let noted = of(": note: ./src/lib.rt:7:1: what antt said");
        assert_eq!((noted.place.as_deref(), noted.by), (Some("src/lib.rt:7:1"), Refused::Fact));
        assert_eq!(of(": what stands nowhere").place, None);
        let names = of(" (only because a proof file names what the edit took away, so this says little): ./proofs/A.antt:1:2: error: `x` is not in scope");
        assert_eq!((names.place.as_deref(), names.by), (Some("proofs/A.antt:1:2"), Refused::Names));
        let limit = of(" (only by a limit of the prover, which gave no verdict): ./src/lib.rt:3:4: error: stopped");
        assert_eq!((limit.place.as_deref(), limit.by), (Some("src/lib.rt:3:4"), Refused::Limit));
    }

    #[test]
    fn a_failure_is_refused() {
        assert!(read(&LOG.replace("5 passed, 0 failed", "4 passed, 1 failed")).unwrap_err().contains("did not pass"));
        assert!(read("").unwrap_err().contains("did not pass"));
    }

    #[test]
    fn a_log_that_lost_a_line_is_refused() {
        let lost = LOG.replace("rt: must-fail one/other.edit: refused, as it must be\n", "");
        assert!(read(&lost).unwrap_err().contains("counts 5 passed, and has 4"));
        let lost = LOG.replace("logic=proved functions=1 axioms=7 target=x sum=0\n", "");
        assert!(read(&lost).unwrap_err().contains("no verdict before: rt: shown proved"));
        let lost = LOG.lines().filter(|l| !l.starts_with("rt: ok")).collect::<Vec<_>>().join("\n");
        assert!(read(&lost).unwrap_err().contains("no line \"rt: ok\""));
        assert!(read(&LOG.replace("edits: 2 refused", "edits: 3 refused")).unwrap_err().contains("counts 3 edits refused, and the log has 2"));
    }

    #[test]
    fn an_edit_that_was_not_refused_does_not_count() {
        let survived = LOG.replace("one/other.edit: refused, as it must be", "one/other.edit: NOT REFUSED: the crate is still proved with this edit");
        assert!(read(&survived).is_err());
    }

    #[test]
    fn a_bad_edit_is_refused() {
        assert!(read(&LOG.replace("2 refused;", "2 refused, 1 bad;")).unwrap_err().contains("which show nothing: 1 bad"));
        assert!(read(&LOG.replace("2 refused;", "2 refused, 1 of them only by a limit, 12 bad;")).unwrap_err().contains("12 bad"));
        assert!(read(&LOG.replace("2 refused;", "2 refused, 1 of them only by a limit, 0 bad;")).is_ok());
    }
}
