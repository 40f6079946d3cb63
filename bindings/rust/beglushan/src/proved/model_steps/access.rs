// Erased by bindings/rust/erase from crates/model_steps/src/access.rt, sha256 e1cfed60ce48f2746992737241d2784990b5b3cc4bc8790b9b1e1988466feceb.
//! What one step asks of a memory, and what the memory returns.

/// One access to at most one register: the atomic step of every program and world here.
///
/// Registers of values are read and written. Registers of bits are set by test-and-set and cleared (Moir and Anderson
/// 1995).
#[derive(Clone, Copy, Debug, PartialEq, Eq)]
pub enum Access<R, V> {
    /// Reads the value of a register.
    Read(R),
    /// Writes a value into a register.
    Write(R, V),
    /// Accesses no register.
    Nothing,
}

/// What a memory returns to an access.
#[derive(Clone, Copy, Debug, PartialEq, Eq)]
pub enum Answer<V> {
    /// The value that was read.
    Value(V),
    /// Nothing: the answer to a write, to a clear and to no access.
    Done,
}
