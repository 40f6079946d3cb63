// Erased by bindings/rust/erase from crates/text_checker/src/judges/firsts.rt, sha256 e442ec766dcf9bc17edb9eb21f12e17b476a8fd64c404cf085f051a699b22a9d.
//! The first moments in which proposals are alone.

use crate::kit::alloc::{AllocError, Global};
use crate::kit::collections::HashMap;
use crate::proved::text_records::pairs::Pairs;

/// The last moment of the memory, as a view, and one earlier moment for each participant.
///
/// That is the first moment since its last proposal in which no other participant proposed the same, if there was one.
pub struct Firsts {
    present: Pairs,
    found: HashMap<u64, Pairs>,
}

/// Whether a number is proposed in these pairs.
fn is_proposed(pairs: &[(u64, u64)], number: u64) -> bool {
    pairs.iter().any(|pair| pair.1 == number)
}

/// The identity that alone proposes a number in a view, or `None` if none does or more than one.
fn sole_proposer(pairs: &[(u64, u64)], number: u64) -> Option<u64> {
    for i in 0..pairs.len() {
        if pairs[i].1 == number {
            if is_proposed(&pairs[i + 1..], number) {
                return None;
            }
            return Some(pairs[i].0);
        }
    }
    None
}

/// The proposal of an identity in a view.
fn number_of(pairs: &[(u64, u64)], id: u64) -> Option<u64> {
    for pair in pairs {
        if pair.0 == id {
            return Some(pair.1);
        }
    }
    None
}

impl Firsts {
    /// Makes the state before any proposal. This allocates nothing.
    pub fn new(alloc: Global) -> Firsts {
        Firsts {
            present: Pairs::new(alloc),
            found: HashMap::new(alloc),
        }
    }

    /// Returns the first moment since the last proposal of an identity in which no other proposed the same, or `None`.
    pub fn view_of(&self, id: u64) -> Option<&Pairs> {
        self.found.get(&id)
    }

    /// Records the present moment for the identity that alone proposes a number in it, if it is the first such moment.
    fn note(&mut self, number: u64) -> Result<(), AllocError> {
        let Some(id) = sole_proposer(self.present.as_slice(), number) else {
            return Ok(());
        };
        if self.found.contains_key(&id) {
            return Ok(());
        }
        let view = self.present.copied()?;
        self.found.insert(id, view)?;
        Ok(())
    }

    /// Records that an identity proposes a number.
    ///
    /// # Errors
    ///
    /// `AllocError`: the allocation failed. The state is then of no use.
    pub fn propose(&mut self, id: u64, number: u64) -> Result<(), AllocError> {
        let before = number_of(self.present.as_slice(), id);
        self.present.put(id, number)?;
        self.found.remove(&id);
        self.note(number)?;
        if let Some(left) = before {
            self.note(left)?;
        }
        Ok(())
    }
}
