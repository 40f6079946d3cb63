// Erased by bindings/rust/erase from crates/words_pool/src/pool_view.rt, sha256 ec784c59c60bed0ffc002645a807769053efea24d957fd6fd1d73fef056bbcbc.
//! The ghost state of a seat of a pool. No value of these types is made: they exist in proofs alone.

/// The ghost state of a seat of a pool.
pub struct PoolView;
