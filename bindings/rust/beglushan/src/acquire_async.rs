//! A number for a task that waits for one.

use crate::pool::{Lent, Pool};
use crate::slot::SlotOf;
use std::fmt;
use std::future::Future;
use std::pin::Pin;
use std::sync::Arc;
use std::task::{Context, Poll};

/// What [`Pool::acquire_async`] answers.
pub type Acquire<'pool> = AcquireOf<&'pool Pool>;

/// What [`Pool::acquire_async_owned`] answers.
pub type AcquireOwned = AcquireOf<Arc<Pool>>;

/// A slot, once a number is free. It may be dropped before: then it leaves the queue, and wakes the next task if it was woken.
#[must_use = "a future does nothing unless it is polled"]
pub struct AcquireOf<P: Lent> {
    pool: P,
    /// Its number in the queue, from its first poll without a slot to its last.
    place: Option<u64>,
}

impl<P: Lent> AcquireOf<P> {
    pub(crate) fn of(pool: P) -> AcquireOf<P> {
        AcquireOf { pool, place: None }
    }

    fn attempt(&mut self) -> Option<SlotOf<P>> {
        let held = self.pool.take_last()?;
        // A release has woken this task, maybe for another number than the one that it took. Then that one is for the next task.
        if self
            .place
            .take()
            .is_some_and(|place| !self.pool.waiting().leave(place))
        {
            self.pool.waiting().wake();
        }
        Some(SlotOf::of(self.pool.clone(), held))
    }
}

impl<P: Lent + Unpin> Future for AcquireOf<P> {
    type Output = SlotOf<P>;

    fn poll(mut self: Pin<&mut Self>, context: &mut Context<'_>) -> Poll<SlotOf<P>> {
        if let Some(slot) = self.attempt() {
            return Poll::Ready(slot);
        }
        self.place = self.pool.waiting().enter(self.place, context.waker());
        // A number that was given back before the task was in the queue has woken nobody.
        if let Some(slot) = self.attempt() {
            return Poll::Ready(slot);
        }
        if self.place.is_none() {
            // In a forked child whose queue nobody can open the task asks again and again.
            context.waker().wake_by_ref();
        }
        Poll::Pending
    }
}

impl<P: Lent> Drop for AcquireOf<P> {
    fn drop(&mut self) {
        if self
            .place
            .take()
            .is_some_and(|place| !self.pool.waiting().leave(place))
        {
            self.pool.waiting().wake();
        }
    }
}

impl<P: Lent> fmt::Debug for AcquireOf<P> {
    fn fmt(&self, f: &mut fmt::Formatter<'_>) -> fmt::Result {
        f.debug_struct("Acquire")
            .field("is_queued", &self.place.is_some())
            .finish_non_exhaustive()
    }
}
