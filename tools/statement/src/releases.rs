//! The release list: each entry marked mended names edits that the gate tries, a theorem that shuts the fault out, and a build.

use crate::tree;

/// One fault of the list: its heading, and its lines `- NAME: value`.
struct Fault<'a> {
    heading: &'a str,
    lines: Vec<(&'a str, &'a str)>,
}

impl Fault<'_> {
    fn line(&self, name: &str) -> Result<&str, String> {
        let found = self.lines.iter().find(|(n, _)| *n == name).map(|(_, value)| *value);
        found.filter(|v| !v.is_empty()).ok_or(format!("{}: no line `- {name}: ..`", self.heading))
    }
}

/// Checks the list against the edits that the gate tried, and answers how many faults it has.
pub fn check(list: &str, tried: &[String]) -> Result<usize, String> {
    let faults = faults_in(list);
    for fault in &faults {
        fault.line("Known")?;
        let state = fault.line("State")?;
        match state.strip_prefix("mended in ") {
            Some(build) => is_mended(fault, build, tried)?,
            None if state == "open" => {}
            None => return Err(format!("{}: the state is `open` or `mended in BUILD`, and not `{state}`", fault.heading)),
        }
    }
    match faults.len() {
        0 => Err("docs/RELEASES.md has no entry".to_string()),
        n => Ok(n),
    }
}

/// "an entry marked mended names an edit that the gate tries"; its build has a note, and its theorems are there.
fn is_mended(fault: &Fault, build: &str, tried: &[String]) -> Result<(), String> {
    if !tree::exists(&format!("docs/landings/{build}.md")) {
        return Err(format!("{}: there is no build {build} under docs/landings/", fault.heading));
    }
    let edits = spans(fault.line("Edits")?);
    if edits.is_empty() {
        return Err(format!("{}: marked mended, and names no edit", fault.heading));
    }
    if let Some(lost) = edits.iter().find(|e| !tried.iter().any(|t| t == *e)) {
        return Err(format!("{}: the gate tries no edit {lost}", fault.heading));
    }
    let (file, names) = fault.line("Shut out by")?.split_once(": ").ok_or(format!("{}: no file and theorem", fault.heading))?;
    let text = tree::text(&format!("crates/{}", file.trim_matches('`')))?;
    match spans(names).iter().find(|n| !tree::declares(&text, n)) {
        Some(lost) => Err(format!("{}: {file} has no theorem {lost}", fault.heading)),
        None => Ok(()),
    }
}

fn faults_in(list: &str) -> Vec<Fault<'_>> {
    let mut faults: Vec<Fault> = Vec::new();
    for line in list.lines() {
        if let Some(heading) = line.strip_prefix("## ") {
            faults.push(Fault { heading, lines: Vec::new() });
        } else if let (Some(fault), Some((name, value))) = (faults.last_mut(), line.strip_prefix("- ").and_then(|l| l.split_once(": "))) {
            fault.lines.push((name, value.trim()));
        }
    }
    faults
}

/// What stands between backquotes.
pub fn spans(text: &str) -> Vec<&str> {
    text.split('`').skip(1).step_by(2).collect()
}

#[cfg(test)]
mod tests {
    use super::*;

    // the tests run in tools/statement/
    fn at_the_top<T>(run: impl FnOnce() -> T) -> T {
        std::env::set_current_dir(concat!(env!("CARGO_MANIFEST_DIR"), "/../..")).unwrap();
        run()
    }

    const LIST: &str = "# List\n\n- not: of an entry\n\n## 1. A fault\n\n- Known: in winter\n- State: mended in base-5\n\
        - Shut out by: `host_claims/proofs/Laws.antt`: `nobody_forgotten`\n- Edits: `a/b`, `c/d`\n\n## 2. Another\n\n- Known: now\n- State: open\n";

    fn tried() -> Vec<String> {
        vec!["a/b".into(), "c/d".into()]
    }

    #[test]
    fn a_list_that_is_right() {
        assert_eq!(at_the_top(|| check(LIST, &tried())), Ok(2));
    }

    #[test]
    fn an_edit_that_the_gate_does_not_try() {
        assert!(at_the_top(|| check(LIST, &["a/b".to_string()])).unwrap_err().contains("no edit c/d"));
    }

    #[test]
    fn mended_without_an_edit() {
        let list = LIST.replace("- Edits: `a/b`, `c/d`\n", "");
        assert!(at_the_top(|| check(&list, &tried())).unwrap_err().contains("no line `- Edits"));
        let list = LIST.replace("`a/b`, `c/d`", "none");
        assert!(at_the_top(|| check(&list, &tried())).unwrap_err().contains("names no edit"));
    }

    #[test]
    fn a_theorem_that_is_not_there() {
        let list = LIST.replace("nobody_forgotten", "nobody_forgot");
        assert!(at_the_top(|| check(&list, &tried())).unwrap_err().contains("no theorem nobody_forgot"));
    }

    #[test]
    fn a_build_that_is_not_there() {
        let list = LIST.replace("mended in base-5", "mended in base-99");
        assert!(at_the_top(|| check(&list, &tried())).unwrap_err().contains("base-99"));
    }

    #[test]
    fn a_state_of_another_kind_and_an_empty_list() {
        assert!(at_the_top(|| check(&LIST.replace("State: open", "State: closed"), &tried())).is_err());
        assert!(check("# List\n", &tried()).is_err());
        assert!(at_the_top(|| check(&LIST.replace("- Known: now\n", ""), &tried())).is_err());
    }
}
