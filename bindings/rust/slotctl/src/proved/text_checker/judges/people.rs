// Erased by bindings/rust/erase from crates/text_checker/src/judges/people.rt, sha256 b494e69ef877302e0a9cc149f43719b4e7077352a8fc2ea0207991c2858b0d1c.
//! Participants in a list, found by their identities.

use crate::kit::alloc::{AllocError, Global};
use crate::kit::Vec;
use crate::proved::model_steps::hints::Hints;
use crate::proved::model_steps::participant::Participant;
use crate::proved::model_steps::refusal::Refusal;

/// Participants with distinct identities, in the order in which they came, and an index to try first for each. Contracts
/// see the list.
pub struct People<P> {
    hints: Hints,
    list: Vec<Participant<P>>,
}

impl<P> People<P> {
    /// Makes an empty list. This allocates nothing.
    pub fn new(alloc: Global) -> People<P> {
        People {
            hints: Hints::new(),
            list: Vec::new(alloc),
        }
    }

    /// Returns the number of participants, which is below 2^63.
    pub fn count(&self) -> usize {
        self.list.len()
    }

    /// Returns the participants, in the order in which they came.
    pub fn list(&self) -> &[Participant<P>] {
        &self.list
    }
}

impl<P: Copy> People<P> {
    /// Returns what is kept of an identity, or `None` if the list does not have it.
    pub fn find(&self, id: u64) -> Option<P> {
        let Some(i) = self.hints.find(&self.list, id) else {
            return None;
        };
        Some(self.list[i].program)
    }

    /// Returns the error that the entry of an identity must return, where at most `most` may be in the list, or `None`.
    pub fn entry_refusal(
        &self,
        id: u64,
        most: u64,
        known: Refusal,
        full: Refusal,
    ) -> Option<Refusal> {
        if id == 0 {
            Some(Refusal::ZeroIdentity)
        } else if self.find(id).is_some() {
            Some(known)
        } else if most <= self.count() as u64 {
            Some(full)
        } else {
            None
        }
    }

    /// Replaces what is kept of an identity, if the list has it.
    pub fn put(&mut self, id: u64, program: P) {
        let Some(i) = self.hints.find(&self.list, id) else {
            return;
        };
        self.list[i] = Participant {
            identity: id,
            program,
            ended: false,
        };
    }

    /// Adds an identity, if the list does not have it.
    ///
    /// # Errors
    ///
    /// `AllocError`: the allocation failed. Nothing has changed for those in the list.
    pub fn push(&mut self, id: u64, program: P) -> Result<(), AllocError> {
        if self.find(id).is_some() {
            return Ok(());
        }
        self.hints.note(id, self.list.len());
        self.list.push(Participant {
            identity: id,
            program,
            ended: false,
        })?;
        Ok(())
    }

    /// Removes an identity.
    pub fn remove(&mut self, id: u64) {
        self.list.retain(|participant| participant.identity != id);
    }
}
