// Erased by bindings/rust/erase from crates/words_pool/src/pool_steps.rt, sha256 038d6f6c647f5c435893deff0b76a90dae1fdbfd981074bfd2cc48e069b446d4.
//! The invariant of a pool's table, and the kinds of step that keep it.

use crate::kit::atomic_table::{Play, TableRule};
use crate::proved::words_pool::pool_view::PoolView;

/// The invariant of a pool's table.
pub struct Pooling;

impl<S> TableRule<S, PoolView, u64> for Pooling {}

/// A call begins, and reads the first word.
pub struct Come;

impl<S> Play<S, PoolView> for Come {}

/// A call begins, by a swap of 1 into the first word. It holds the number if the word was 0.
pub struct ComeBySwap;

impl<S> Play<S, PoolView> for ComeBySwap {}

/// A call reads the word of its place.
pub struct LookAtNumber;

impl<S> Play<S, PoolView> for LookAtNumber {}

/// A call swaps 1 into the word of its place. It holds the number if the word was 0.
pub struct Take;

impl<S> Play<S, PoolView> for Take {}

/// A call at rest reads the word of a hint.
pub struct LookAside;

impl<S> Play<S, PoolView> for LookAside {}

/// A call at rest swaps 1 into the word of a hint. It holds the number if the word was 0.
pub struct TakeAside;

impl<S> Play<S, PoolView> for TakeAside {}

/// The holder of a number clears its word.
pub struct Free;

impl<S> Play<S, PoolView> for Free {}
