//! The tables of a document, `| cell | cell |`, each found by its header.

/// The rows of every table with this header, as their cells.
pub fn rows<'a>(document: &'a str, header: &[&str]) -> Vec<Vec<&'a str>> {
    let mut rows = Vec::new();
    let mut inside = false;
    for line in document.lines() {
        let cells = cells_of(line);
        if cells == header {
            inside = true;
        } else if cells.is_empty() {
            inside = false;
        } else if inside && !cells.iter().all(|c| c.chars().all(|x| x == '-')) {
            rows.push(cells);
        }
    }
    rows
}

fn cells_of(line: &str) -> Vec<&str> {
    match line.trim().strip_prefix('|').and_then(|l| l.strip_suffix('|')) {
        Some(inner) => inner.split('|').map(str::trim).collect(),
        None => Vec::new(),
    }
}

#[cfg(test)]
mod tests {
    use super::*;

    #[test]
    fn rows_of_tables_with_the_header() {
        let document = "| A | B |\n|---|---|\n| 1 | 2 |\n\n| C | D |\n|---|---|\n| 3 | 4 |\n\n| A | B |\n|---|---|\n| 5 |\n";
        assert_eq!(rows(document, &["A", "B"]), [vec!["1", "2"], vec!["5"]]);
        assert!(rows(document, &["A", "C"]).is_empty());
    }
}
