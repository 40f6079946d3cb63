// Erased by bindings/rust/erase from crates/service_follow/src/pause.rt, sha256 a7751c789d827dd51d6d47a2c25b14ff1df13c01cd9a3b993a15535860ef2a91.
//! Patience with a store that does not answer.

/// Patience with a store that does not answer, or answers late.
pub trait Pause: Sized {
    /// Begins to wait for the store anew.
    fn begin(&mut self);

    /// Waits a little, and tells whether patience goes on.
    fn again(&mut self) -> bool;

    /// How many seconds its clock has counted since some moment.
    fn seconds(&self) -> u64;
}
