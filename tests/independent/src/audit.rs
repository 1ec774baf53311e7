//! The request-row audit: "the first position, counted from 0, whose ID is 0, at most R, or equal to an earlier one, or
//! that there is none".

use std::collections::HashSet;

/// By the letter: each ID beside all earlier ones.
pub fn audit(ids: &[u16], r: u64) -> Option<usize> {
    let is_wanted = |&position: &usize| {
        let (earlier, id) = (&ids[..position], ids[position]);
        id == 0 || u64::from(id) <= r || earlier.contains(&id)
    };
    (0..ids.len()).find(is_wanted)
}

/// The same in less time, for long rows: the first that is 0 or at most R, unless one before it is equal to an earlier one.
pub fn audit_long(ids: &[u16], r: u64) -> Option<usize> {
    let reserved = ids.iter().position(|&id| id == 0 || u64::from(id) <= r);
    let mut earlier = HashSet::new();
    let mut before = ids[..reserved.unwrap_or(ids.len())].iter();
    before.position(|id| !earlier.insert(id)).or(reserved)
}

#[cfg(test)]
mod tests {
    use super::*;
    use crate::random::Random;

    /// What both answer.
    fn found(ids: &[u16], r: u64) -> Option<usize> {
        let found = audit(ids, r);
        assert_eq!(audit_long(ids, r), found, "{ids:?}, R = {r}");
        found
    }

    #[test]
    fn each_reason() {
        assert_eq!(found(&[39, 40, 0], 38), Some(2));
        assert_eq!(found(&[39, 40, 38], 38), Some(2));
        assert_eq!(found(&[39, 40, 1], 38), Some(2));
        assert_eq!(found(&[39, 40, 39], 38), Some(2));
        assert_eq!(found(&[39, 40, 41], 38), None);
    }

    #[test]
    fn the_first_of_several() {
        assert_eq!(found(&[39, 39, 0, 1], 38), Some(1));
        assert_eq!(found(&[39, 0, 39, 1], 38), Some(1));
        assert_eq!(found(&[39, 1, 39, 0], 38), Some(1));
        assert_eq!(found(&[0, 39, 39], 38), Some(0));
        assert_eq!(found(&[1, 2, 2, 1], 0), Some(2));
    }

    #[test]
    fn an_empty_row_has_none() {
        for r in [0, 38, 65_535, u64::MAX] {
            assert_eq!(found(&[], r), None);
        }
    }

    #[test]
    fn the_ends_of_r() {
        assert_eq!(found(&[1, 65_535], 0), None);
        assert_eq!(found(&[65_535], 65_534), None);
        for r in [65_535, 65_536, 1 << 32, u64::MAX] {
            assert_eq!(found(&[65_535], r), Some(0));
        }
    }

    #[test]
    fn all_ids_and_one_more() {
        let mut ids: Vec<u16> = (1..=65_535).collect();
        assert_eq!(audit_long(&ids, 0), None);
        ids.push(40_000);
        assert_eq!(audit_long(&ids, 0), Some(65_535));
        assert_eq!(audit_long(&ids[38..], 38), Some(65_497));
    }

    #[test]
    fn both_agree() {
        let mut random = Random::seeded("the two independent audits");
        let mut none = 0;
        for _ in 0..20_000 {
            let (length, greatest) = (random.up_to(40), random.one_of(&[40, 400, 65_535]));
            let ids: Vec<u16> = (0..length).map(|_| random.up_to(greatest) as u16).collect();
            let r = random.one_of(&[0, 1, 5, 38, 65_535]);
            none += usize::from(found(&ids, r).is_none());
        }
        assert!(none >= 1_000, "{none} rows without such a position");
    }
}
