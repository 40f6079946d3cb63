// Erased by bindings/rust/erase from crates/text_records/src/pairs.rt, sha256 c0e6352de896262d2258b2c818c6637afaad9e9583ae0b460342b42b869a1962.
//! The pairs of a view, as a record writes them.

use crate::kit::alloc::{AllocError, Global};
use crate::kit::Clone;
use crate::kit::Vec;

/// Pairs of an identity and a number, as many as a record has. Contracts see the list.
#[derive(Debug)]
pub struct Pairs {
    items: Vec<(u64, u64)>,
}

/// The index of the first pair whose identity is at least this one.
fn first_from(pairs: &[(u64, u64)], id: u64) -> Option<usize> {
    pairs.iter().position(|pair| id <= pair.0)
}

/// The index at which the pair of an identity is, or would be inserted.
fn place_for(pairs: &[(u64, u64)], id: u64) -> usize {
    first_from(pairs, id).unwrap_or(pairs.len())
}

/// Whether the pair at this index has this identity.
fn has_at(pairs: &[(u64, u64)], at: usize, id: u64) -> bool {
    if pairs.len() <= at {
        return false;
    }
    pairs[at].0 == id
}

impl Pairs {
    /// Makes a list with no pair. This allocates nothing.
    pub fn new(alloc: Global) -> Pairs {
        Pairs {
            items: Vec::new(alloc),
        }
    }

    /// Appends a pair.
    ///
    /// # Errors
    ///
    /// `AllocError`: the allocation failed. The pairs are unchanged.
    pub fn push(&mut self, id: u64, number: u64) -> Result<(), AllocError> {
        self.items.push((id, number)).map_err(AllocError::from)
    }

    /// Adds the pair of an identity in the order of identities, or replaces the identity's pair.
    ///
    /// # Errors
    ///
    /// `AllocError`: the allocation failed. The pairs are unchanged.
    pub fn put(&mut self, id: u64, number: u64) -> Result<(), AllocError> {
        let at = place_for(&self.items, id);
        if has_at(&self.items, at, id) {
            self.items[at] = (id, number);
            return Ok(());
        }
        self.items.insert(at, (id, number))?;
        Ok(())
    }

    /// Returns a copy of the pairs.
    ///
    /// # Errors
    ///
    /// `AllocError`: the allocation failed.
    pub fn copied(&self) -> Result<Pairs, AllocError> {
        Ok(Pairs {
            items: self.items.clone()?,
        })
    }

    /// Returns the pairs, in their order.
    pub fn as_slice(&self) -> &[(u64, u64)] {
        &self.items
    }
}
