//! What the gate recorded of its run (`.ci/gate.record`, written only where every part passed), and whether the tree is still that
//! of the commit.

use crate::tree;
use std::process::Command;

/// The page's own file: it may differ from the commit, since it is made after the gate.
pub const PAGE: &str = "docs/BUILD-STATEMENT.txt";

#[derive(Debug, Default, PartialEq)]
pub struct Record {
    pub commit: String,
    /// Files that differed from the commit when the gate began, the page aside.
    pub changed: usize,
    pub passed: String,
    pub seconds: u64,
    pub kit: String,
}

/// The record of the last gate that passed.
pub fn read(text: &str) -> Result<Record, String> {
    let mut record = Record::default();
    for line in text.lines() {
        let (name, value) = line.split_once(' ').unwrap_or((line, ""));
        match name {
            "commit" => record.commit = value.to_string(),
            "changed" => record.changed = value.parse().map_err(|_| bad(line))?,
            "passed" => record.passed = value.to_string(),
            "seconds" => record.seconds = value.parse().map_err(|_| bad(line))?,
            "kit" => record.kit = value.to_string(),
            _ => return Err(bad(line)),
        }
    }
    Ok(record)
}

fn bad(line: &str) -> String {
    format!(".ci/gate.record has a line that is none: {line}")
}

/// The record, where there is one.
pub fn of_gate() -> Result<Record, String> {
    let text = tree::text(".ci/gate.record").map_err(|_| "the gate did not pass here, or has not run: .ci/run".to_string())?;
    read(&text)
}

/// Refuses a record of another commit, of a gate whose tree differed from its commit, and a tree that differs now.
pub fn is_of_tree(record: &Record, head: &str, changed: &[String]) -> Result<(), String> {
    if record.changed != 0 {
        return Err(format!("the tree differed from the commit in {} files when the gate ran", record.changed));
    }
    if record.commit != head {
        return Err(format!("the gate passed on commit {}, and this is {head}", record.commit));
    }
    if !changed.is_empty() {
        return Err(format!("the tree differs from the commit: {}", changed.join(", ")));
    }
    Ok(())
}

/// The commit checked out.
pub fn head() -> Result<String, String> {
    Ok(git(&["rev-parse", "HEAD"])?.trim().to_string())
}

/// The files that differ from the commit or are not in it, the page aside.
pub fn changed() -> Result<Vec<String>, String> {
    let status = git(&["status", "--porcelain", "--untracked-files=all"])?;
    Ok(status.lines().map(|l| l[3..].to_string()).filter(|path| path != PAGE).collect())
}

fn git(words: &[&str]) -> Result<String, String> {
    let out = Command::new("git").args(words).output().map_err(|e| format!("git cannot be run: {e}"))?;
    if !out.status.success() {
        return Err(format!("git {}: {}", words.join(" "), String::from_utf8_lossy(&out.stderr).trim()));
    }
    Ok(String::from_utf8_lossy(&out.stdout).into_owned())
}

#[cfg(test)]
mod tests {
    use super::*;

    fn passed() -> Record {
        read("commit abc\nchanged 0\npassed 4 passed, 0 failed\nseconds 61\nkit a kit\n").unwrap()
    }

    #[test]
    fn a_record() {
        let record = passed();
        assert_eq!((record.commit.as_str(), record.seconds), ("abc", 61));
        assert_eq!((record.passed.as_str(), record.kit.as_str()), ("4 passed, 0 failed", "a kit"));
        assert_eq!(is_of_tree(&record, "abc", &[]), Ok(()));
    }

    #[test]
    fn another_commit_is_refused() {
        assert!(is_of_tree(&passed(), "abd", &[]).unwrap_err().contains("this is abd"));
    }

    #[test]
    fn a_changed_tree_is_refused() {
        assert!(is_of_tree(&passed(), "abc", &["README.md".into()]).unwrap_err().contains("README.md"));
        let record = Record { changed: 2, ..passed() };
        assert!(is_of_tree(&record, "abc", &[]).unwrap_err().contains("2 files"));
    }

    #[test]
    fn another_line_is_refused() {
        assert!(read("commit abc\nsomething else\n").is_err());
    }
}
