// Erased by bindings/rust/erase from crates/service_log/src/machine.rt, sha256 528449d5c7f4cb5aaf30b3fd35f90e60559717aab79e6ef640190ca8a7008eb8.
//! State machines.

use crate::kit::alloc::AllocError;

/// Why an entry was not applied.
#[derive(Clone, Copy, Debug, PartialEq, Eq)]
pub enum ApplyFault {
    /// An allocation failed.
    Memory,
    /// The entry is damaged: it tells what no state can follow from.
    Damaged,
}

impl From<AllocError> for ApplyFault {
    fn from(_refused: AllocError) -> ApplyFault {
        ApplyFault::Memory
    }
}

/// A state machine that applies entries, each a list of bytes.
pub trait Machine: Sized {
    /// The replies to an entry.
    type Replies;

    /// Applies an entry, and stores its replies in place of those before.
    ///
    /// # Errors
    ///
    /// Nothing is known of the machine after either:
    ///
    /// - `Memory`: an allocation failed.
    /// - `Damaged`: the entry is damaged.
    fn apply(&mut self, entry: &[u8], replies: &mut Self::Replies) -> Result<(), ApplyFault>;

    /// Replaces the replies by none.
    fn forget(replies: &mut Self::Replies);
}
