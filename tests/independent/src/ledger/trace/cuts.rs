//! Cuts of receive: the bytes that a list's receives took give the same items when they are handed in at once.

use super::{clause, Clause};
use crate::ledger::answers::{Item, Received};
use crate::line::Line;

/// What the accepted receives took and answered.
#[derive(Clone, Debug, Default)]
pub struct Cuts {
    /// The bytes taken, joined.
    taken: Vec<u8>,
    /// The items, without *more*.
    items: Vec<Item>,
    /// What the last of them answered, if there was one.
    pub last: Option<Item>,
}

impl Cuts {
    pub fn record(&mut self, new: &[u8], received: &Received) -> Clause {
        let Some(taken) = new.get(..received.taken) else {
            return Err(format!("{} taken of {}", received.taken, new.len()));
        };
        self.taken.extend(taken);
        self.last = Some(received.item);
        if received.item != Item::More {
            self.items.push(received.item);
        }
        Ok(())
    }

    /// The bytes taken, at once and until *more*, give the items answered and behind them those that the bytes held now
    /// decide alone; what is held then is the same. After *more*, or without a receive, the held bytes stay as they are,
    /// so that they decide nothing. Answers how many items they decide.
    pub fn at_once(&self, held: &[u8]) -> Result<usize, String> {
        let (items, left) = handed_in(&[], &self.taken);
        let (still, left_of_held) = handed_in(held, &[]);
        let wanted = [&self.items[..], &still].concat();
        clause(items == wanted, || format!("items at once: {items:?}, not {wanted:?}"))?;
        clause(left == left_of_held, || {
            format!("held at once: {left:02x?}, not {left_of_held:02x?}")
        })?;
        let decided = self.last.is_some_and(|item| item != Item::More);
        clause(decided || left == held, || format!("held after *more*: {held:02x?}"))?;
        Ok(still.len())
    }
}

/// The items of this piece behind held bytes, its untaken rest again until *more*, and what is held then.
fn handed_in(held: &[u8], piece: &[u8]) -> (Vec<Item>, Vec<u8>) {
    let mut line = Line { held: held.to_vec() };
    let items = line.items(piece).into_iter().map(|decided| Item::of(&Some(decided)));
    let items = items.collect();
    (items, line.held)
}
