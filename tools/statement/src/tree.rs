//! The files of the repository, from its top folder, where the commands run.

use std::path::Path;

/// A file's text.
pub fn text(path: &str) -> Result<String, String> {
    std::fs::read_to_string(path).map_err(|e| format!("{path} cannot be read: {e}"))
}

/// The Rattle files that stand in the folder of one, itself among them.
pub fn beside(path: &str) -> Vec<String> {
    let folder = path.rsplit_once('/').map_or(".", |(folder, _)| folder);
    let entries = std::fs::read_dir(folder).into_iter().flatten().filter_map(|e| Some(e.ok()?.path().to_str()?.to_string()));
    entries.filter(|file| file.ends_with(".rt")).collect()
}

pub fn exists(path: &str) -> bool {
    Path::new(path).exists()
}

/// Whether a name stands in a text as a word of its own. Words of a definition's name hold letters, digits, `-`, `_` and `'`.
pub fn has_word(text: &str, name: &str) -> bool {
    let in_word = |c: char| c.is_alphanumeric() || matches!(c, '-' | '_' | '\'');
    text.match_indices(name).any(|(at, _)| {
        let before = text[..at].chars().next_back();
        let after = text[at + name.len()..].chars().next();
        !before.is_some_and(in_word) && !after.is_some_and(in_word)
    })
}

/// Whether a file of definitions or proofs declares a name: with its type, as a definition, theorem, constructor or field, `name : ..`, or as
/// a type of its own, `data Name ..`, `record Name ..`. A line that only uses it does not count.
pub fn declares(text: &str, name: &str) -> bool {
    text.lines().any(|line| {
        let mut rest = line.trim_start();
        for word in ["abbrev ", "unfoldable ", "pub "] {
            rest = rest.strip_prefix(word).unwrap_or(rest);
        }
        let own_type = rest.strip_prefix("data ").or(rest.strip_prefix("record "));
        match own_type {
            Some(rest) => rest.strip_prefix(name).is_some_and(|after| after.starts_with(' ')),
            None => rest.strip_prefix(name).is_some_and(|after| after.starts_with(" :")),
        }
    })
}

/// The crate of a path `CRATE/proofs/File.antt`, and the path from the repository's top.
pub fn in_crates(path: &str) -> (&str, String) {
    let name = path.split('/').next().unwrap_or(path);
    (name, format!("crates/{path}"))
}

#[cfg(test)]
mod tests {
    use super::*;

    #[test]
    fn words_are_whole() {
        assert!(has_word("pub demand-3 : x", "demand-3"));
        assert!(!has_word("pub demand-33 : x", "demand-3"));
        assert!(!has_word("not-demand-3", "demand-3"));
        assert!(has_word("fn write(", "write"));
        assert!(!has_word("fn write_around(", "write"));
    }

    #[test]
    fn declarations() {
        assert!(declares("abbrev pub le16 : ℕ → List ℕ\n", "le16"));
        assert!(declares("pub record Meets (d : Done) : Type 0 where\n  pub answers : x\n", "answers"));
        assert!(declares("  pub at-most-once : (place : ℕ) → x", "at-most-once"));
        assert!(!declares("-- le16 : the two bytes", "le16"));
        assert!(declares("pub data Cause : Type 0 where\n  acknowledged : Cause\n", "Cause"));
        assert!(declares("pub data Cause : Type 0 where\n  acknowledged : Cause\n", "acknowledged"));
        assert!(!declares("x = le16 n", "le16"));
        assert!(!declares("le16 n = n % 256 ∷ n / 256 ∷ []", "le16"));
        assert!(!declares("pub le16s : ℕ", "le16"));
    }
}
