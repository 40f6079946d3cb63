// Erased by bindings/rust/erase from crates/words_pool/src/line_steps.rt, sha256 85e8e172bb77e94d800c0ba06586fbf3e4d8dd11b2636f4490af37c726e2b120.
//! The invariant of a line's table, and the kinds of step that only a line has.

use crate::kit::atomic_table::{Play, Split, TableRule};
use crate::proved::words_pool::pool_view::PoolView;

/// The invariant of a line's table.
pub struct Lining;

impl<S> TableRule<S, PoolView, u64> for Lining {}

/// A split: the first call goes to the new seat.
pub struct DealNumber;

impl Split<PoolView> for DealNumber {}

/// A call begins, by a swap of 1 into the first word. It holds the number if the word was 0.
pub struct ComeBySwapInLine;

impl<S> Play<S, PoolView> for ComeBySwapInLine {}

/// A call swaps 1 into the word of its place. It holds the number if the word was 0, and the number is then small.
pub struct TakeInLine;

impl<S> Play<S, PoolView> for TakeInLine {}

/// A step that no seat makes.
pub struct Never;

impl<S> Play<S, PoolView> for Never {}
