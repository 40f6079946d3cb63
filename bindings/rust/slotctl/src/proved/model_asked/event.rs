// Erased by bindings/rust/erase from crates/model_asked/src/event.rt, sha256 cb1365aafb7ed05be01571781102cabf59b3c15f22c2b23cdf9f0714ec8f1c6b.
//! What a participant does, and the growth of the pool.

/// One event: an action of one participant, or the growth of the pool, which is no participant's. It makes at most one
/// access, but for `Seek`, which stands for probes that make one each.
///
/// The identity is as it was written, 0 included.
#[derive(Clone, Copy, Debug, PartialEq, Eq)]
pub enum Event {
    /// The participant begins.
    Begin(u64),
    /// The participant takes its next step.
    Step(u64),
    /// The participant begins to compete for the pool.
    Enter(u64),
    /// The competitor makes its next access to the bits of the pool.
    Probe(u64),
    /// The competitor probes until it has a number. The wide world alone knows it.
    Seek(u64),
    /// The competitor gives its number back and stops competing.
    Leave(u64),
    /// The holder of a number puts a value into its slot.
    Put(u64, u64),
    /// The holder of a number gets the value in its slot.
    Get(u64),
    /// The pool gets more numbers, up to this one, and each new slot holds 0.
    Widen(u64),
}
