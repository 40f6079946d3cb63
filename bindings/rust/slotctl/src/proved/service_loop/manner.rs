// Erased by bindings/rust/erase from crates/service_loop/src/manner.rt, sha256 f7af15b01b39cbbb4975842509da92b9fad6c29eda8ddafa4911b6e9b5c7c5b9.
//! How a server takes numbers for its clients.

/// How a server takes numbers for its clients.
#[derive(Clone, Copy, Debug, PartialEq, Eq)]
pub struct Manner {
    /// Whether a number is searched for by one `seek`, as in the wide world, and elsewhere by `probe`.
    pub wide: bool,
    /// Whether a client that takes a number is told a token.
    pub tokens: bool,
}
