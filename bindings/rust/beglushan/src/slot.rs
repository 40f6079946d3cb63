//! A number that is held.

use crate::pool::{Lent, Pool};
use crate::proved::words_pool::held::Held;
use core::cmp::Ordering;
use core::fmt;
use core::hash::{Hash, Hasher};
use std_alloc::sync::Arc;

/// A slot of a pool that is lent.
pub type Slot<'pool> = SlotOf<&'pool Pool>;

/// A slot that keeps its pool.
pub type OwnedSlot = SlotOf<Arc<Pool>>;

/// The guard of a number of a pool, which nobody else holds meanwhile. Dropping the slot gives the number back, in a panic too.
///
/// The next holder of the number sees what was written before the slot was dropped. A slot that is forgotten (`mem::forget`)
/// keeps its number for good. Slots are ordered by pool and then by number.
///
/// A slot may go to another thread, and threads may share it. So `&slot` may be kept across an `.await`. [`Slots`](crate::Slots)
/// lends an element to one borrower at a time, by `&mut` of the slot:
///
/// ```
/// fn goes_and_is_shared<T: Send + Sync>() {}
/// goes_and_is_shared::<beglushan::Slot<'static>>();
/// ```
#[must_use = "a slot that is dropped gives its number back at once"]
pub struct SlotOf<P: Lent> {
    // It is taken out when the slot is dropped.
    held: Option<Held>,
    number: usize,
    pool: P,
}

impl<P: Lent> SlotOf<P> {
    /// A slot of what the pool has just given.
    #[inline(always)]
    pub(crate) fn of(pool: P, held: Held) -> SlotOf<P> {
        SlotOf {
            // A number is at most 4096.
            number: held.number() as usize,
            held: Some(held),
            pool,
        }
    }

    /// The number, from 1 to the pool's capacity.
    #[must_use]
    #[inline]
    pub fn number(&self) -> usize {
        self.number
    }

    /// The number less one: a place of an array as long as the pool.
    #[must_use]
    #[inline]
    pub fn index(&self) -> usize {
        self.number - 1
    }

    /// The pool that the number is of.
    #[must_use]
    #[inline]
    pub fn pool(&self) -> &Pool {
        &self.pool
    }

    fn place(&self) -> (usize, usize) {
        (self.pool.key(), self.number)
    }
}

impl<P: Lent> Drop for SlotOf<P> {
    #[inline(always)]
    fn drop(&mut self) {
        if let Some(held) = self.held.take() {
            self.pool.give_back(held);
        }
    }
}

impl<P: Lent, Q: Lent> PartialEq<SlotOf<Q>> for SlotOf<P> {
    fn eq(&self, other: &SlotOf<Q>) -> bool {
        self.place() == other.place()
    }
}

impl<P: Lent> Eq for SlotOf<P> {}

impl<P: Lent, Q: Lent> PartialOrd<SlotOf<Q>> for SlotOf<P> {
    fn partial_cmp(&self, other: &SlotOf<Q>) -> Option<Ordering> {
        Some(self.place().cmp(&other.place()))
    }
}

impl<P: Lent> Ord for SlotOf<P> {
    fn cmp(&self, other: &SlotOf<P>) -> Ordering {
        self.place().cmp(&other.place())
    }
}

impl<P: Lent> Hash for SlotOf<P> {
    fn hash<H: Hasher>(&self, state: &mut H) {
        self.place().hash(state);
    }
}

impl<P: Lent> fmt::Debug for SlotOf<P> {
    fn fmt(&self, f: &mut fmt::Formatter<'_>) -> fmt::Result {
        f.debug_struct("Slot")
            .field("number", &self.number)
            .finish_non_exhaustive()
    }
}
