//! What `tests/run` said: the comparisons with their counts, and the seeds of what was generated.

#[derive(Debug, Default, PartialEq)]
pub struct Comparisons {
    /// What agreed, sorted, since tests run side by side.
    pub agreed: Vec<String>,
    /// `SEED  PURPOSE`, sorted.
    pub seeds: Vec<String>,
    /// Archives for C, each with the number of assumed contracts that its check reached.
    pub archives: Vec<(String, usize)>,
    /// What this machine could not run.
    pub left_out: bool,
}

/// The comparisons under valgrind: `tests/run` says so where it leaves them out.
pub const EXACT: &str = "exact heap buffers";

pub fn read(log: &str) -> Comparisons {
    let mut found = Comparisons::default();
    let mut assumed = 0;
    for line in log.lines() {
        // the test harness may have put its own marks before a line
        if let Some(at) = line.find("compared: ") {
            found.agreed.push(line[at + "compared: ".len()..].to_string());
        } else if let Some(at) = line.find("seed: ") {
            let rest = &line[at + "seed: ".len()..];
            if let Some((purpose, seed)) = rest.rsplit_once(": ") {
                found.seeds.push(format!("{seed}  {purpose}"));
            }
        } else if line.starts_with("logic=proved ") {
            assumed = assumed_in(line);
        } else if let Some(name) = archive_in(line) {
            found.archives.push((name, assumed));
        } else if line.starts_with("left out: ") {
            found.left_out = true;
        }
    }
    found.agreed.sort();
    found.seeds.sort();
    found
}

/// `logic=proved functions=9 axioms=2 ..`; none where it has no such word.
fn assumed_in(line: &str) -> usize {
    line.split(' ').find_map(|w| w.strip_prefix("axioms=")).and_then(|n| n.parse().ok()).unwrap_or(0)
}

/// `archive: libNAME.a`, which `tests/run` says behind the check by which `rt lib` made it.
fn archive_in(line: &str) -> Option<String> {
    line.strip_prefix("archive: ").map(str::to_string)
}

#[cfg(test)]
mod tests {
    use super::*;

    #[test]
    fn lines_behind_a_harness_mark() {
        let log = "..seed: reader, slices: 7\n.compared: reader, slices: 5 slices agree\ncompared: audit: 3 agree\n.\n";
        let found = read(log);
        assert_eq!(found.agreed, ["audit: 3 agree", "reader, slices: 5 slices agree"]);
        assert_eq!(found.seeds, ["7  reader, slices"]);
        assert!(!found.left_out);
    }

    #[test]
    fn archives_and_what_they_assume() {
        let log = "logic=proved functions=3 sum=0\nlogic=proved functions=9 target=x\narchive: liba.a\n\
                   logic=proved functions=3 sum=0\nlogic=proved functions=9 axioms=2 target=x\narchive: libb.a\n";
        assert_eq!(read(log).archives, [("liba.a".to_string(), 0), ("libb.a".to_string(), 2)]);
    }

    #[test]
    fn what_was_left_out() {
        assert!(read("left out: no valgrind here\n").left_out);
    }
}
