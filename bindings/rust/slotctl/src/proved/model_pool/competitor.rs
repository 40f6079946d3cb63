// Erased by bindings/rust/erase from crates/model_pool/src/competitor.rt, sha256 34b95cb55d178771927988b8ca5e74ee465af7642d184fdc2c947d37c6194e6e.
//! One competitor of a pool.

use crate::proved::model_pool::stay::Stay;

/// A competitor of a pool.
#[derive(Clone, Copy, Debug, PartialEq, Eq)]
pub struct Competitor {
    /// Its identity; not 0.
    pub identity: u64,
    /// Its own state.
    pub stay: Stay,
}
