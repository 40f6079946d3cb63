// Erased by bindings/rust/erase from crates/model_pool/src/entry.rt, sha256 08c92474b858b024701f2d5b9d6409a00a055f167a5b698e964ad024337f5686.
//! An entry of the roster.

use crate::proved::model_pool::stay::Stay;

/// A competitor, or one that has left.
#[derive(Clone, Copy)]
pub(crate) struct Entry {
    /// Its identity; not 0.
    pub identity: u64,
    /// Its own state, or `None` if it has left.
    pub stay: Option<Stay>,
}
