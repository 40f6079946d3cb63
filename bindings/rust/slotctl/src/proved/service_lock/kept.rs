// Erased by bindings/rust/erase from crates/service_lock/src/kept.rt, sha256 3e408a43c62884ed7a343abe74b392d490eee59cc2e3bf9485ad9d6ecebdbea6.
//! What a caller keeps of an event.

use crate::proved::model_asked::exchange::Exchange;

/// An accepted event with its reply and its place in the history.
#[derive(Clone, Copy, Debug, PartialEq, Eq)]
pub struct Kept {
    /// Its place in the history, from 0.
    pub place: usize,
    /// The event and its reply.
    pub exchange: Exchange,
}
