//! The names that a document cites between backquotes, and its links, held to the tree: a renamed crate, function, file or edit shows.
//! Landing notes are history and are not looked at.

use crate::gate::Gate;
use crate::releases::spans;
use crate::{functions, headings, tree};

pub const DOCUMENTS: [&str; 6] = [
    "README.md",
    "docs/ARCHITECTURE.md",
    "docs/ASSURANCE.md",
    "docs/DECISIONS.md",
    "docs/RELEASES.md",
    "docs/SESSION-SCRIPT.md",
];

/// Checks that nothing was left out: every crate stands in the architecture, and every public function of a crate in the assurance.
pub fn covers(known: &Tree, architecture: &str, assurance: &str) -> Result<usize, String> {
    let mut crates = known.crates.clone();
    crates.dedup();
    let spans_of = |text: &str| text.lines().flat_map(spans).map(str::to_string).collect::<Vec<_>>();
    let (named, promised) = (spans_of(architecture), spans_of(assurance));
    if let Some(lost) = crates.iter().find(|c| !named.contains(c)) {
        return Err(format!("docs/ARCHITECTURE.md does not name the crate {lost}"));
    }
    let mut counted = 0;
    for (path, text) in &known.code {
        for function in functions::public_in(text) {
            counted += 1;
            if !promised.iter().any(|f| f.rsplit("::").next() == Some(function)) {
                return Err(format!("docs/ASSURANCE.md does not name {function}, which is public in {path}"));
            }
        }
    }
    Ok(counted)
}

/// What names are looked up in: the crates, the files below the repository, and the text of the code and of the definitions.
pub struct Tree {
    pub crates: Vec<String>,
    pub files: Vec<String>,
    pub code: Vec<(String, String)>,
    pub definitions: Vec<(String, String)>,
}

/// Checks every document, and answers how many names it looked up.
pub fn check(known: &Tree) -> Result<usize, String> {
    let mut looked_up = 0;
    for path in DOCUMENTS {
        let folder = path.rsplit_once('/').map_or("", |(folder, _)| folder);
        looked_up += check_text(&tree::text(path)?, folder, known).map_err(|why| format!("{path}: {why}"))?;
    }
    Ok(looked_up)
}

fn check_text(text: &str, folder: &str, known: &Tree) -> Result<usize, String> {
    let mut looked_up = 0;
    for span in text.lines().flat_map(spans) {
        if let Some(is_there) = known.has(span) {
            looked_up += 1;
            if !is_there {
                return Err(format!("`{span}` names nothing that is there"));
            }
        }
    }
    for link in links(text) {
        looked_up += 1;
        leads_somewhere(link, text, folder)?;
    }
    Ok(looked_up)
}

/// What a text links to, `[words](path)`, `[words](path#anchor)` or `[words](#anchor)`; addresses on the net aside.
fn links(text: &str) -> Vec<&str> {
    let targets = text.split("](").skip(1).filter_map(|rest| rest.split(')').next());
    targets.filter(|t| !t.contains("://")).collect()
}

/// A link's file is there, and has a heading with the link's anchor. An anchor alone is of the text itself.
fn leads_somewhere(link: &str, text: &str, folder: &str) -> Result<(), String> {
    let (file, anchor) = link.split_once('#').map_or((link, None), |(file, anchor)| (file, Some(anchor)));
    let path = if folder.is_empty() { file.to_string() } else { format!("{folder}/{file}") };
    if !file.is_empty() && !tree::exists(&path) {
        return Err(format!("a link to {file}, which is not there"));
    }
    let Some(anchor) = anchor else { return Ok(()) };
    let target = if file.is_empty() { text.to_string() } else { tree::text(&path)? };
    if headings::anchors(&target).iter().any(|a| a == anchor) {
        return Ok(());
    }
    Err(format!("a link to {link}, and no heading there has that anchor"))
}

impl Tree {
    /// The functions of a crate, by their paths.
    pub fn functions_of(&self, name: &str) -> Vec<String> {
        let folder = format!("crates/{name}/src/");
        let files = self.code.iter().filter(|(file, _)| file.starts_with(&folder));
        files.flat_map(|(file, code)| functions::paths_in(file, code)).collect()
    }

    /// Nothing was left out of the gate: each crate is proved, each of its functions, and each edit was tried and refused.
    pub fn is_proved(&self, gate: &Gate) -> Result<(), String> {
        let mut crates = self.crates.clone();
        crates.dedup();
        for name in crates {
            gate.of(&name)?;
            self.functions_of(&name).iter().try_for_each(|path| gate.proves(path))?;
        }
        let refused = gate.refused();
        let edits = self.files.iter().filter_map(|f| f.strip_prefix("crates/")?.strip_suffix(".edit")?.split_once("/must-fail/"));
        match edits.map(|(name, label)| format!("{name}/{label}")).find(|edit| !refused.contains(edit)) {
            Some(lost) => Err(format!("the gate refused no edit {lost}, which stands in the tree")),
            None => Ok(()),
        }
    }

    /// Whether a span is a name of this tree, or none where it is no name that can be looked up.
    fn has(&self, span: &str) -> Option<bool> {
        let plain = |s: &str| !s.is_empty() && s.chars().all(|c| c.is_alphanumeric() || "_-./:".contains(c));
        if !plain(span) || span.contains("..") {
            return None;
        }
        if let Some((first, _)) = span.split_once("::") {
            // a name with `_` is a crate's; another that is no crate may be a module, a type or the kit's
            let looked_up = self.is_crate(first) || first.contains('_');
            return looked_up.then(|| self.has_item(first, span.rsplit("::").next().unwrap_or(span)));
        }
        if span.ends_with(".antt") || span.ends_with(".rt") || span.ends_with(".md") {
            return Some(self.files.iter().any(|f| f == span || f.ends_with(&format!("/{span}"))));
        }
        let (first, label) = span.split_once('/')?;
        (self.is_crate(first) && !label.contains('/')).then(|| self.has_edit_or_folder(first, label))
    }

    fn is_crate(&self, name: &str) -> bool {
        self.crates.iter().any(|c| c == name)
    }

    fn has_item(&self, name: &str, item: &str) -> bool {
        let folder = format!("crates/{name}/src/");
        self.code.iter().any(|(path, text)| path.starts_with(&folder) && tree::has_word(text, item))
    }

    fn has_edit_or_folder(&self, name: &str, label: &str) -> bool {
        let edit = format!("crates/{name}/must-fail/{label}.edit");
        let inside = format!("crates/{name}/{}", label.trim_end_matches('/'));
        self.files.iter().any(|f| *f == edit || *f == inside || f.starts_with(&format!("{inside}/")))
    }
}

/// The tree as it is, without what rt and cargo made.
pub fn tree() -> Result<Tree, String> {
    let mut files = Vec::new();
    files_below(".", &mut files)?;
    files.sort();
    let code = texts(&files, |f| f.ends_with(".rt"))?;
    let definitions = texts(&files, |f| f.starts_with("crates/") && f.split('/').nth(2) == Some("specs"))?;
    let crates: Vec<String> = files.iter().filter_map(|f| f.strip_prefix("crates/")?.split('/').next().map(str::to_string)).collect();
    Ok(Tree { crates, files, code, definitions })
}

/// The files of a kind, each with its text.
fn texts(files: &[String], is_wanted: impl Fn(&str) -> bool) -> Result<Vec<(String, String)>, String> {
    files.iter().filter(|f| is_wanted(f)).map(|f| Ok((f.clone(), tree::text(f)?))).collect()
}

fn files_below(folder: &str, files: &mut Vec<String>) -> Result<(), String> {
    for entry in std::fs::read_dir(folder).map_err(|e| format!("{folder} cannot be read: {e}"))? {
        let path = entry.map_err(|e| e.to_string())?.path();
        let name = path.to_string_lossy().trim_start_matches("./").to_string();
        if path.is_dir() {
            let is_made = name.ends_with("target") || name.starts_with("crates/") && name.ends_with("/out");
            if !is_made && name != ".git" {
                files_below(&path.to_string_lossy(), files)?;
            }
        } else {
            files.push(name);
        }
    }
    Ok(())
}

#[cfg(test)]
mod tests {
    use super::*;
    use crate::gate;

    fn known() -> Tree {
        let files = ["crates/one/src/lib.rt", "crates/one/specs/A.antt", "crates/one/must-fail/wrong.edit", "docs/X.md"];
        Tree {
            crates: vec!["one".into()],
            files: files.iter().map(|f| f.to_string()).collect(),
            code: vec![("crates/one/src/lib.rt".into(), "pub fn write(n: u8) -> u8".into())],
            definitions: Vec::new(),
        }
    }

    #[test]
    fn names_that_are_there() {
        for span in ["one::write", "one/specs/A.antt", "specs/A.antt", "one/wrong", "one/src", "docs/X.md"] {
            assert_eq!(known().has(span), Some(true), "{span}");
        }
    }

    #[test]
    fn names_that_are_not() {
        for span in ["one::read", "one_more::write", "one/specs/B.antt", "one/right", "docs/Y.md", "two/src/lib.rt"] {
            assert_eq!(known().has(span), Some(false), "{span}");
        }
    }

    #[test]
    fn other_words_are_passed_over() {
        for span in ["libc::read", "&[u8]", "N passed, 0 failed", "x..y", "write", "tests/run", ".ci/run"] {
            assert_eq!(known().has(span), None, "{span}");
        }
    }

    #[test]
    fn nothing_is_left_out_of_the_gate() {
        let log = "== one\nfn one::write: proved\nlogic=proved functions=1\nrt: one proved\n\
            rt: must-fail one/wrong.edit: refused, as it must be\nrt: ok; handles allowed: none; must-fail edits: 1 refused; all\n2 passed, 0 failed\n";
        let proved = |log: &str| known().is_proved(&gate::read(log).unwrap());
        assert_eq!(proved(log), Ok(()));
        assert!(proved(&log.replace("one", "two")).unwrap_err().contains("the crate one"));
        assert!(proved(&log.replace("one::write", "one::read")).unwrap_err().contains("the function one::write"));
        assert!(proved(&log.replace("one/wrong", "one/other")).unwrap_err().contains("no edit one/wrong"));
    }

    #[test]
    fn nothing_is_left_out() {
        assert_eq!(covers(&known(), "the crate `one`", "`one::write`: the answer"), Ok(1));
        assert!(covers(&known(), "one", "`one::write`").unwrap_err().contains("the crate one"));
        assert!(covers(&known(), "`one`", "write").unwrap_err().contains("does not name write"));
    }

    #[test]
    fn links_and_spans_of_a_text() {
        assert_eq!(links("[a](b.md), [c](d/e.md#f), [g](https://h), [i](#j)"), ["b.md", "d/e.md#f", "#j"]);
        assert_eq!(check_text("`one::write` and `one/wrong`", "", &known()), Ok(2));
        assert!(check_text("`one::read`", "", &known()).unwrap_err().contains("one::read"));
    }

    #[test]
    fn links_lead_to_files_and_headings() {
        std::env::set_current_dir(concat!(env!("CARGO_MANIFEST_DIR"), "/../..")).unwrap();
        let linked = |link: &str, folder: &str| check_text(&format!("# One of two\n\n[words]({link})\n"), folder, &known());
        assert_eq!(linked("docs/RELEASES.md", ""), Ok(1));
        assert_eq!(linked("docs/RELEASES.md#known-faults-and-the-builds-that-mend-them", ""), Ok(1));
        assert_eq!(linked("RELEASES.md#1-a-waiting-caller-is-never-woken", "docs"), Ok(1));
        assert_eq!(linked("#one-of-two", "docs"), Ok(1));
        assert!(linked("docs/RELEASE.md#known-faults", "").unwrap_err().contains("docs/RELEASE.md, which is not there"));
        assert!(linked("docs/RELEASES.md#known-faults", "").unwrap_err().contains("RELEASES.md#known-faults, and no heading"));
        assert!(linked("#two-of-two", "docs").unwrap_err().contains("#two-of-two, and no heading"));
    }
}
