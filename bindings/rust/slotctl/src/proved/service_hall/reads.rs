// Erased by bindings/rust/erase from crates/service_hall/src/reads.rt, sha256 a0d61736d26e3e908929650af19da129418af5efbb8cb99ceb454b0e8d890c4e.
//! Whether a history stores reads.

/// Whether a history stores reads. A read is a `get`: it changes nothing of a desk.
#[derive(Clone, Copy, Debug, PartialEq, Eq)]
pub enum Reads {
    /// A `get` is an event of the history, as all other events are.
    Logged,
    /// A `get` is answered at its place, and stored nowhere.
    Plain,
}
