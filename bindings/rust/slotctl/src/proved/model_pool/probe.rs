// Erased by bindings/rust/erase from crates/model_pool/src/probe.rt, sha256 c957eda3eba1fe125e9eafb70494a36ddf785d092f12e12a726e04c0fe93b8f7.
//! What a probe returns.

/// What a probe returns (Moir and Anderson 1995).
#[derive(Clone, Copy, Debug, PartialEq, Eq)]
pub enum Probe {
    /// The bit was set: another competitor holds its number. The next probe is of the next bit.
    Missed,
    /// The competitor holds this number, from 1 to the size of the pool, and no other does.
    Got(u32),
}
