// Erased by bindings/rust/erase from crates/words_machine/src/seat_view.rt, sha256 ce90b957cc18af7757daa5dd6a36ad5f0610ab0f7bb52047d096da047f1fbbe4.
//! What a seat knows. No value of these types is made: they exist in proofs alone.

/// What a seat knows.
pub struct SeatView<P, O>(core::marker::PhantomData<(P, O)>);
