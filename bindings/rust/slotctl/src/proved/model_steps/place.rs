// Erased by bindings/rust/erase from crates/model_steps/src/place.rt, sha256 ae6de7cbef49266563b9308b533e3152b4c46f37e3e21779d08419683fdec4f7.
//! What a participant gets by walking.

/// A place: the number of a door, a node or a segment. Each participant has a place of its own, whose segment it alone
/// writes.
///
/// Nodes of a tree are numbered like a heap, so a place has 128 bits.
pub type Place = u128;
