//! The headings of a document, and the anchor by which a link names each.

/// The anchors of all headings, by GitHub's rule. Where one is there already, the later ones get a number: `a`, `a-1`, `a-2`.
pub fn anchors(document: &str) -> Vec<String> {
    let mut plain: Vec<String> = Vec::new();
    let mut found = Vec::new();
    let mut in_code = false;
    for line in document.lines() {
        in_code ^= line.starts_with("```");
        let Some(title) = title_in(line).filter(|_| !in_code) else { continue };
        let anchor = anchor_of(title);
        found.push(match plain.iter().filter(|p| **p == anchor).count() {
            0 => anchor.clone(),
            n => format!("{anchor}-{n}"),
        });
        plain.push(anchor);
    }
    found
}

/// `## Title`, with one to six marks.
fn title_in(line: &str) -> Option<&str> {
    let rest = line.trim_start_matches('#');
    let is_heading = (1..=6).contains(&(line.len() - rest.len())) && rest.starts_with(' ');
    is_heading.then(|| rest.trim())
}

/// Small letters, punctuation dropped, spaces to hyphens.
fn anchor_of(title: &str) -> String {
    let kept = title.to_lowercase();
    let kept = kept.chars().filter(|c| c.is_alphanumeric() || matches!(c, ' ' | '-' | '_'));
    kept.map(|c| if c == ' ' { '-' } else { c }).collect()
}

#[cfg(test)]
mod tests {
    use super::*;

    #[test]
    fn anchors_of_headings() {
        let document = "# Known faults, and the rest\n\ntext # no heading\n### 3. Can a caller still be forgotten?\n#no-heading\n";
        assert_eq!(anchors(document), ["known-faults-and-the-rest", "3-can-a-caller-still-be-forgotten"]);
        assert_eq!(anchor_of("The `c_api` - a, b"), "the-c_api---a-b");
    }

    #[test]
    fn equal_headings_are_counted() {
        assert_eq!(anchors("# A\n## A\n## B\n# A\n"), ["a", "a-1", "b", "a-2"]);
    }

    #[test]
    fn code_has_no_headings() {
        assert_eq!(anchors("# A\n```\n# a comment\n```\n    # another\n# B\n"), ["a", "b"]);
    }
}
