//! The table of what is assumed of C: each program and each archive for C, with the number of contracts of C functions that its check
//! reached. The check says it where it is made in this run; of a program that an earlier run proved the log says nothing.
//!
//! A row is `` | `program`, `program` | 8: 6 of `libc`, `os::f`, `os::g` | ``, or `0`.

use crate::comparisons::Comparisons;
use crate::gate::Gate;
use crate::releases::spans;
use crate::tables;

const HEADER: [&str; 2] = ["Program or archive", "Assumed"];

/// What the table says of each program and archive: its name, and the words of its row.
pub fn table(document: &str) -> Vec<(String, String)> {
    let rows = tables::rows(document, &HEADER);
    let named = rows.iter().filter(|cells| cells.len() == HEADER.len());
    named.flat_map(|cells| spans(cells[0]).into_iter().map(|name| (name.to_string(), cells[1].replace('`', "")))).collect()
}

/// Every program and archive has a row, and where this gate's logs have a number it is the row's.
pub fn check(document: &str, gate: &Gate, compared: &Comparisons) -> Result<(), String> {
    let table = table(document);
    let said = |name: &str| {
        let row = table.iter().find(|(n, _)| n == name);
        row.map(|(_, words)| words.as_str()).ok_or(format!("docs/ASSURANCE.md does not say what {name} assumes of C"))
    };
    for name in &gate.programs {
        let words = said(name)?;
        let checked = gate.of(name)?.checked.as_ref().map(|c| in_words(&c.assumed));
        if let Some(found) = checked.filter(|found| found != words) {
            return Err(format!("docs/ASSURANCE.md says that {name} assumes {words}, and its check reached {found}"));
        }
    }
    for (name, count) in &compared.archives {
        if said(name)?.split(':').next() != Some(&count.to_string()) {
            return Err(format!("docs/ASSURANCE.md says that {name} assumes {}, and its check reached {count}", said(name)?));
        }
    }
    Ok(())
}

/// `8: 6 of libc, os::f, os::g`, or `0`.
fn in_words(assumed: &[(usize, String)]) -> String {
    let total: usize = assumed.iter().map(|(n, _)| n).sum();
    let names: Vec<&str> = assumed.iter().map(|(_, names)| names.as_str()).collect();
    if names.is_empty() {
        return total.to_string();
    }
    format!("{total}: {}", names.join(", "))
}

#[cfg(test)]
mod tests {
    use super::*;
    use crate::gate::{self, tests::LOG};

    const TABLE: &str = "| Program or archive | Assumed |\n|---|---|\n| `shown`, `other` | 7: 6 of `libc`, `os::c::rattle_errno` |\n| `liba.a` | 0 |\n";

    fn checked(table: &str, log: &str) -> Result<(), String> {
        let compared = Comparisons { archives: vec![("liba.a".into(), 0)], ..Comparisons::default() };
        check(table, &gate::read(log).unwrap(), &compared)
    }

    #[test]
    fn a_table_that_is_right() {
        assert_eq!(checked(TABLE, LOG), Ok(()));
        assert_eq!(table(TABLE)[1], ("other".to_string(), "7: 6 of libc, os::c::rattle_errno".to_string()));
    }

    #[test]
    fn another_number_is_refused() {
        let said = checked(&TABLE.replace("7: 6", "8: 7"), LOG).unwrap_err();
        assert!(said.contains("shown assumes 8: 7 of libc, os::c::rattle_errno, and its check reached 7: 6 of libc, os"), "{said}");
        assert!(checked(&TABLE.replace("| 0 |", "| 2: 2 of `libc` |"), LOG).unwrap_err().contains("liba.a assumes 2: 2 of libc, and its check reached 0"));
    }

    #[test]
    fn a_program_or_an_archive_without_a_row_is_refused() {
        assert!(checked(&TABLE.replace("`shown`, ", ""), LOG).unwrap_err().contains("what shown assumes"));
        assert!(checked(&TABLE.replace("`liba.a`", "`libb.a`"), LOG).unwrap_err().contains("what liba.a assumes"));
    }

    #[test]
    fn a_program_that_an_earlier_run_proved_has_its_row() {
        let from = LOG.find("== shown").unwrap();
        let to = LOG.find("rt: shown proved\n").unwrap() + "rt: shown proved\n".len();
        let kept = "rt: shown is kept: an earlier run on this machine proved the same files over the same libraries\n";
        let log = format!("{}{kept}{}", &LOG[..from], &LOG[to..]);
        assert_eq!(checked(TABLE, &log), Ok(()));
        assert!(checked(&TABLE.replace("`shown`, ", ""), &log).is_err());
    }
}
