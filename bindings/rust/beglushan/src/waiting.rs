//! Calls that wait until a number is given back.

use crate::error::Error;
use crate::lock::Process;
use std::sync::atomic::{AtomicUsize, Ordering::SeqCst};
use std::sync::{Condvar, Mutex, PoisonError};
#[cfg(feature = "async")]
use std::task::Waker;
use std::time::{Duration, Instant};

/// Who waits, and how they are woken. A release pays one load while nobody waits.
pub(crate) struct Waiting {
    count: AtomicUsize,
    door: Mutex<Queue>,
    released: Condvar,
    process: Process,
}

/// The tasks that wait, the first to be woken in front.
#[derive(Default)]
struct Queue {
    #[cfg(feature = "async")]
    tasks: std::collections::VecDeque<(u64, Waker)>,
    #[cfg(feature = "async")]
    last: u64,
}

impl Waiting {
    pub(crate) fn new() -> Waiting {
        Waiting {
            count: AtomicUsize::new(0),
            door: Mutex::new(Queue::default()),
            released: Condvar::new(),
            process: Process::this(),
        }
    }

    /// Wakes one that waits, after a number was given back.
    #[inline(always)]
    pub(crate) fn wake(&self) {
        // The accesses to words are sequentially consistent, as these are. Either this sees who waits, or who waits is counted after
        // the number was given back, and its next try sees that.
        if self.count.load(SeqCst) > 0 {
            self.wake_one();
        }
    }

    #[cold]
    #[inline(never)]
    fn wake_one(&self) {
        // Who was counted waits already once this has the lock, or tries again before it does. In a forked child nobody waits.
        let Some(queue) = self.process.lock(&self.door) else {
            return;
        };
        #[cfg(feature = "async")]
        let task = {
            let mut queue = queue;
            queue.tasks.pop_front()
        };
        #[cfg(not(feature = "async"))]
        drop(queue);
        self.released.notify_one();
        #[cfg(feature = "async")]
        if let Some((_, waker)) = task {
            self.count.fetch_sub(1, SeqCst);
            waker.wake();
        }
    }

    /// Tries until the attempt answers something else than that no number is free, or until the time is over.
    pub(crate) fn until<T>(
        &self,
        most: Duration,
        mut attempt: impl FnMut() -> Result<T, Error>,
    ) -> Result<T, Error> {
        let end = Instant::now().checked_add(most);
        let _counted = Counted::of(&self.count);
        let mut door = self.process.lock(&self.door).ok_or(Error::Forked)?;
        loop {
            match attempt() {
                Err(Error::Full { .. }) => {}
                told => return told,
            }
            let left = end.map_or(most, |end| end.saturating_duration_since(Instant::now()));
            if left.is_zero() {
                return Err(Error::TimedOut);
            }
            let waited = self.released.wait_timeout(door, left);
            door = waited.unwrap_or_else(PoisonError::into_inner).0;
        }
    }
}

#[cfg(feature = "async")]
impl Waiting {
    /// Puts a task into the queue, or its new waker, and returns its number there. A task that had a number, and was woken in vain,
    /// stands where it stood. None in a forked child, if some thread of the parent was at the queue at the fork.
    pub(crate) fn enter(&self, number: Option<u64>, waker: &Waker) -> Option<u64> {
        let mut queue = self.process.lock(&self.door)?;
        if let Some(task) = queue.tasks.iter_mut().find(|task| Some(task.0) == number) {
            task.1.clone_from(waker);
            return number;
        }
        self.count.fetch_add(1, SeqCst);
        let number = number.unwrap_or(queue.last + 1);
        queue.last = queue.last.max(number);
        let place = queue.tasks.partition_point(|task| task.0 < number);
        queue.tasks.insert(place, (number, waker.clone()));
        Some(number)
    }

    /// Takes a task out of the queue. False if it was not there any more: then a release has woken it.
    pub(crate) fn leave(&self, number: u64) -> bool {
        let Some(mut queue) = self.process.lock(&self.door) else {
            return true;
        };
        let place = queue.tasks.iter().position(|task| task.0 == number);
        let Some(task) = place.and_then(|place| queue.tasks.remove(place)) else {
            return false;
        };
        self.count.fetch_sub(1, SeqCst);
        drop(queue);
        drop(task);
        true
    }
}

/// One that waits, until this is dropped.
struct Counted<'a>(&'a AtomicUsize);

impl Counted<'_> {
    fn of(count: &AtomicUsize) -> Counted<'_> {
        count.fetch_add(1, SeqCst);
        Counted(count)
    }
}

impl Drop for Counted<'_> {
    fn drop(&mut self) {
        self.0.fetch_sub(1, SeqCst);
    }
}
