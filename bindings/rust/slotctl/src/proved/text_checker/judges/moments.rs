// Erased by bindings/rust/erase from crates/text_checker/src/judges/moments.rt, sha256 95655f8f66d92988a776c4dcba496ecf22d86d18cb1335c828d1961cdcd60b6c.
//! The moments of the renaming object, by tables.

use crate::kit::alloc::{AllocError, Global};
use crate::kit::collections::HashMap;

/// The number of numbers, from 0 on. Each proposal is less than twice the number of participants, which is at most 64.
pub const NUMBERS: usize = 128;

/// A moment: the number that is proposed at each seat, or 0.
pub type Row = [u8; 64];

/// The moments of the memory, in tables, so that a question about past moments is a look-up.
///
/// It holds the last moment. For each row it holds one more than the number of the last moment that was this row. For
/// each number it holds one more than that of the last moment that differed from now in whether two or more proposed
/// the number.
pub struct Moments {
    present: Row,
    last: usize,
    turned: [usize; 128],
    seen: HashMap<Row, usize>,
}

/// Whether two or more seats propose a number.
pub fn is_crowded(row: &Row, number: u8) -> bool {
    row.iter().filter(|n| **n == number).count() > 1
}

/// Returns the row with this number at a seat.
pub fn with_number(row: &Row, seat: usize, number: u8) -> Row {
    let mut next = *row;
    if seat < next.len() {
        next[seat] = number;
    }
    next
}

/// Returns the number at a seat, or 0 if there is no such seat.
pub fn number_at(row: &Row, seat: usize) -> u8 {
    if seat < row.len() {
        row[seat]
    } else {
        0
    }
}

impl Moments {
    /// Makes the moments of an object with no proposal: one moment, in which nobody proposes. It allocates room for
    /// `room` moments.
    ///
    /// # Errors
    ///
    /// `AllocError`: the allocation failed.
    pub fn new(alloc: Global, room: usize) -> Result<Moments, AllocError> {
        let mut seen = HashMap::with_capacity(alloc, room)?;
        seen.insert([0; 64], 1)?;
        Ok(Moments {
            present: [0; 64],
            last: 0,
            turned: [0; 128],
            seen,
        })
    }

    /// Returns the number of the last moment. The first has number 0.
    pub fn last(&self) -> usize {
        self.last
    }

    /// Whether some moment from `since` on is this row.
    pub fn has_shown(&self, since: usize, row: &Row) -> bool {
        match self.seen.get(row) {
            Some(past) => since < *past,
            None => false,
        }
    }

    /// One more than the number of the last moment that differed from now in whether two or more proposed this number.
    fn turned(&self, number: u8) -> usize {
        let place = usize::from(number);
        if place < self.turned.len() {
            self.turned[place]
        } else {
            0
        }
    }

    /// Whether two or more seats propose a number in some moment from `since` on.
    pub fn was_crowded(&self, since: usize, number: u8) -> bool {
        is_crowded(&self.present, number) || since < self.turned(number)
    }

    /// Whether at most one seat proposes a number in some moment from `since` on.
    pub fn was_quiet(&self, since: usize, number: u8) -> bool {
        !is_crowded(&self.present, number) || since < self.turned(number)
    }

    /// Records whether the moment numbered `at`, which is `next`, differs for a number.
    fn turn(&mut self, next: &Row, number: u8, at: usize) {
        let place = usize::from(number);
        if place < self.turned.len()
            && is_crowded(&self.present, number) != is_crowded(next, number)
        {
            self.turned[place] = at;
        }
    }

    /// Adds a moment: the last one with this number at a seat.
    ///
    /// # Errors
    ///
    /// `AllocError`: the allocation failed. The moments are then of no use.
    pub fn propose(&mut self, seat: usize, number: u8) -> Result<(), AllocError> {
        let next = with_number(&self.present, seat, number);
        let at = self.last.saturating_add(1);
        self.seen.insert(next, at.saturating_add(1))?;
        let before = number_at(&self.present, seat);
        self.turn(&next, number, at);
        self.turn(&next, before, at);
        self.present = next;
        self.last = at;
        Ok(())
    }
}
