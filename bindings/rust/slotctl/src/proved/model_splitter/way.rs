// Erased by bindings/rust/erase from crates/model_splitter/src/way.rt, sha256 ca3a3a61bf1c7e7886eaeb84a78508510a26048071ddbdd68c519a4c500e9387.
//! Where a visit ends.

/// How a visit to a splitter ends (Moir and Anderson 1995).
#[derive(Clone, Copy, Debug, PartialEq, Eq)]
pub enum Way {
    /// The visitor stops: at most one visitor does.
    Stop,
    /// It found Y set. Not all visitors go right.
    Right,
    /// It found another identity in X. Not all visitors go down.
    Down,
}
