//! One row of IDs through the C audit and the independent one, and a count of the answers met.

use independent::audit::{audit, audit_long};

/// IDs of the longest row that is audited by the letter; longer ones take the independent audit for long rows.
const SHORT: usize = 300;

/// How often nothing was found, and how often an ID was: 0, another that is at most R, and one equal to an earlier one.
#[derive(Default)]
pub struct Tally {
    none: usize,
    zero: usize,
    reserved: usize,
    repeated: usize,
}

impl Tally {
    /// Both audits of one row. That of the C audit stands on the heap, is exactly as long as it is told, and must stay.
    pub fn row(&mut self, ids: &[u16], r: u64) {
        let row: Box<[u16]> = ids.into();
        let found = binding::audit(&row, r);
        assert!(*row == *ids, "R = {r}, {} IDs: the audit changed the row", ids.len());
        self.agree(ids, r, found);
    }

    /// Counts what the C audit found in the row; it must be what the independent one finds.
    pub fn agree(&mut self, ids: &[u16], r: u64, found: usize) {
        let wanted = if ids.len() <= SHORT { audit } else { audit_long }(ids, r);
        assert!(
            found == wanted.unwrap_or(ids.len()),
            "R = {r}, {} IDs: the library found {found}, the independent one {wanted:?}; they begin {:?}",
            ids.len(),
            &ids[..ids.len().min(100)]
        );
        let count = match wanted {
            None => &mut self.none,
            Some(position) if ids[position] == 0 => &mut self.zero,
            Some(position) if u64::from(ids[position]) <= r => &mut self.reserved,
            Some(_) => &mut self.repeated,
        };
        *count += 1;
    }

    /// Prints the counts, each of which must be at least what is asked for: none, ID 0, reserved, equal to an earlier one.
    pub fn report(&self, what: &str, least: [usize; 4]) {
        let counts = [self.none, self.zero, self.reserved, self.repeated];
        println!(
            "compared: audit, {what}: {} audits agree: {} find none, {} ID 0, {} a reserved one, {} one equal to an earlier one",
            counts.iter().sum::<usize>(),
            counts[0],
            counts[1],
            counts[2],
            counts[3]
        );
        for (met, least) in counts.into_iter().zip(least) {
            assert!(met >= least, "{what}: met {counts:?} and should be {least} at least");
        }
    }
}
