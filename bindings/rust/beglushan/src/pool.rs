//! A pool of numbers that threads share.

#[cfg(feature = "async")]
use crate::acquire_async::{Acquire, AcquireOf, AcquireOwned};
use crate::error::Error;
#[cfg(feature = "std")]
use crate::hint::{hint, remember};
use crate::key::new_key;
use crate::kit::alloc::Global;
use crate::proved::model_steps::refusal::Refusal;
use crate::proved::words_pool::held::Held;
use crate::proved::words_pool::pool_over::STRIDE;
use crate::proved::words_pool::word_pool::WordPool;
use crate::slot::{OwnedSlot, Slot, SlotOf};
#[cfg(feature = "std")]
use crate::waiting::Waiting;
use core::fmt;
use core::ops::Deref;
#[cfg(feature = "std")]
use core::time::Duration;
use std_alloc::sync::Arc;

/// The most numbers of a [`Pool`].
pub const MAX_NUMBERS: usize = 4096;

/// Numbers from 1 to the pool's capacity, each held by one at a time. Any threads share them, with no lock.
///
/// ```
/// use beglushan::Pool;
///
/// let pool = Pool::new(2)?;
/// let (one, other) = (pool.acquire().expect("two are free"), pool.acquire().expect("one is free"));
/// assert_eq!((one.number(), other.number()), (1, 2));
/// assert!(pool.acquire().is_none()); // each is held
/// drop(one);
/// assert_eq!(pool.acquire().map(|slot| slot.number()), Some(1));
/// # Ok::<(), beglushan::Error>(())
/// ```
///
/// A pool allocates, so `new` is no `const fn`. One for the whole program is a `static` with a `LazyLock`:
///
/// ```
/// use beglushan::Pool;
/// use std::sync::LazyLock;
///
/// static POOL: LazyLock<Pool> = LazyLock::new(|| Pool::new(64).expect("memory for 64 numbers"));
/// assert!(POOL.acquire().is_some());
/// ```
///
/// # Which number
///
/// | Call | Number |
/// |---|---|
/// | [`acquire`](Pool::acquire) | The number that this thread had last, if it is free; else as `acquire_near` of it. |
/// | [`acquire_near`](Pool::acquire_near) | The first that a walk finds free: from the hint upward, and then from 1. |
/// | [`acquire_least`](Pool::acquire_least) | The least number that a walk from 1 upward finds free. The walk found each smaller number held. |
///
/// Each call returns `None` only if its walk found each number held, one after another. The walk does not turn back. So it may
/// find each number held although never all were held at one moment. With twice as many numbers as threads that is rare.
/// [`Workers`](crate::Workers) never miss a number.
///
/// A thread remembers the last numbers of at most sixteen pools. If it remembers none of this pool, the hint is the thread's own
/// number, if it has one (that of [`PerThread`](crate::PerThread)). Without the feature `std` there is no hint, and `acquire` is
/// `acquire_least`.
///
/// # What waits
///
/// A call makes at most `capacity + 1` accesses to words, and waits for no other thread. No call takes a lock or memory. There is
/// one exception: [`acquire_timeout`](Pool::acquire_timeout) waits. While some thread is in it, each slot that is dropped takes a
/// mutex, to wake one.
///
/// # After a fork
///
/// The child has a copy of the pool. The numbers that other threads held stay taken there.
pub struct Pool {
    words: WordPool<Global>,
    key: usize,
    #[cfg(feature = "std")]
    waiting: Waiting,
}

impl Pool {
    /// Makes a pool of `capacity` numbers, from 1 to [`MAX_NUMBERS`], of which none is held.
    ///
    /// There have to be as many numbers as are held at once, and twice as many if [`acquire`](Pool::acquire) is to miss none.
    ///
    /// # Errors
    ///
    /// - [`Error::Size`]: the capacity is out of range.
    /// - [`Error::NoMemory`]: an allocation failed.
    pub fn new(capacity: usize) -> Result<Pool, Error> {
        let words = match WordPool::new(Global, capacity as u64) {
            Ok(words) => words,
            Err(Refusal::OutOfRange) => {
                return Err(Error::Size {
                    asked: capacity,
                    most: MAX_NUMBERS,
                })
            }
            Err(_) => return Err(Error::NoMemory),
        };
        Ok(Pool {
            words,
            key: new_key(),
            #[cfg(feature = "std")]
            waiting: Waiting::new(),
        })
    }

    /// How many numbers there are.
    #[must_use]
    #[inline]
    pub fn capacity(&self) -> usize {
        self.words.numbers() as usize
    }

    /// How many numbers are held. It looks at each number, one after another.
    #[must_use]
    pub fn len(&self) -> usize {
        let words = &self.words.table.shared;
        let is_held = |place: &u64| words.peek((place * STRIDE) as usize) != 0;
        (0..self.words.numbers()).filter(is_held).count()
    }

    /// Whether no number is held.
    #[must_use]
    pub fn is_empty(&self) -> bool {
        self.len() == 0
    }

    /// Takes a number, until the slot is dropped: the one that this thread had last, if it is free, else the first that a walk
    /// upward from there, and then from 1, finds free.
    ///
    /// A thread that has its last number again touches no word that others use. `None` if the walk found each number held, one
    /// after another.
    #[inline(always)]
    pub fn acquire(&self) -> Option<Slot<'_>> {
        self.take_last().map(|held| SlotOf::of(self, held))
    }

    /// [`acquire`](Pool::acquire), with an error in place of `None`.
    ///
    /// # Errors
    ///
    /// [`Error::Full`]: the walk found each number held, one after another.
    #[inline(always)]
    pub fn try_acquire(&self) -> Result<Slot<'_>, Error> {
        self.acquire().ok_or(self.full())
    }

    /// Takes the least number that a walk from 1 upward finds free, until the slot is dropped. The walk found each smaller number
    /// held.
    ///
    /// If all threads use this call, few threads have small numbers. Threads that walk at once touch the same words, so it is
    /// slower than [`acquire`](Pool::acquire) where they meet.
    ///
    /// ```
    /// use beglushan::Pool;
    ///
    /// let pool = Pool::new(8)?;
    /// drop(pool.acquire_near(5));
    /// assert_eq!(pool.acquire().map(|slot| slot.number()), Some(5)); // the last one again
    /// assert_eq!(pool.acquire_least().map(|slot| slot.number()), Some(1));
    /// # Ok::<(), beglushan::Error>(())
    /// ```
    #[inline(always)]
    pub fn acquire_least(&self) -> Option<Slot<'_>> {
        self.take_least().map(|held| SlotOf::of(self, held))
    }

    /// Takes the first number that a walk finds free: from `hint` up to the greatest, and then from 1 up to `hint`. Any hint is
    /// taken: one that is no number of the pool is as good as 1.
    ///
    /// ```
    /// use beglushan::Pool;
    ///
    /// let pool = Pool::new(8)?;
    /// let mut last = 5;
    /// for _ in 0..3 {
    ///     let slot = pool.acquire_near(last).expect("nobody else is here");
    ///     last = slot.number(); // a number, from 1, and no index
    /// }
    /// assert_eq!(last, 5);
    /// # Ok::<(), beglushan::Error>(())
    /// ```
    #[inline(always)]
    pub fn acquire_near(&self, hint: usize) -> Option<Slot<'_>> {
        self.take_near(hint).map(|held| SlotOf::of(self, held))
    }

    /// [`acquire`](Pool::acquire) with a slot that keeps the pool, for threads that outlive the place where the pool was made.
    ///
    /// ```
    /// use beglushan::Pool;
    /// use std::sync::Arc;
    ///
    /// let pool = Arc::new(Pool::new(4)?);
    /// let slot = pool.acquire_owned().expect("four are free");
    /// drop(pool); // the slot has it still
    /// let number = std::thread::spawn(move || slot.number()).join().expect("nothing panics");
    /// assert_eq!(number, 1);
    /// # Ok::<(), beglushan::Error>(())
    /// ```
    #[inline(always)]
    pub fn acquire_owned(self: &Arc<Self>) -> Option<OwnedSlot> {
        self.take_last()
            .map(|held| SlotOf::of(Arc::clone(self), held))
    }

    /// [`acquire_least`](Pool::acquire_least) with a slot that keeps the pool.
    #[inline(always)]
    pub fn acquire_least_owned(self: &Arc<Self>) -> Option<OwnedSlot> {
        self.take_least()
            .map(|held| SlotOf::of(Arc::clone(self), held))
    }

    /// [`acquire_near`](Pool::acquire_near) with a slot that keeps the pool.
    #[inline(always)]
    pub fn acquire_near_owned(self: &Arc<Self>, hint: usize) -> Option<OwnedSlot> {
        self.take_near(hint)
            .map(|held| SlotOf::of(Arc::clone(self), held))
    }

    /// What this thread had last, if it is free, else the next that is free.
    #[inline(always)]
    pub(crate) fn take_last(&self) -> Option<Held> {
        #[cfg(feature = "std")]
        {
            let hint = hint(self.key);
            let held = self.words.acquire_near(hint).ok()?;
            if held.number() != hint {
                remember(self.key, held.number() as usize);
            }
            Some(held)
        }
        #[cfg(not(feature = "std"))]
        self.take_least()
    }

    #[inline(always)]
    fn take_least(&self) -> Option<Held> {
        self.remembered(self.words.acquire().ok()?)
    }

    #[inline(always)]
    fn take_near(&self, hint: usize) -> Option<Held> {
        self.remembered(self.words.acquire_near(hint as u64).ok()?)
    }

    /// Remembers a number as this thread's last.
    #[inline(always)]
    fn remembered(&self, held: Held) -> Option<Held> {
        #[cfg(feature = "std")]
        remember(self.key, held.number() as usize);
        Some(held)
    }

    fn full(&self) -> Error {
        Error::Full {
            most: self.capacity(),
        }
    }

    /// What tells this pool from all others.
    #[inline(always)]
    pub(crate) fn key(&self) -> usize {
        self.key
    }

    /// Gives back a number of this pool.
    #[inline(always)]
    pub(crate) fn give_back(&self, held: Held) {
        self.words.release(held);
        #[cfg(feature = "std")]
        self.waiting.wake();
    }
}

/// Calls that wait.
#[cfg(feature = "std")]
impl Pool {
    /// [`acquire`](Pool::acquire), which waits while no number is free, for at most so long. It and
    /// [`acquire_timeout_owned`](Pool::acquire_timeout_owned) are the calls that wait. Each slot that is dropped wakes one that
    /// waits.
    ///
    /// # Errors
    ///
    /// - [`Error::TimedOut`]: the call found no number free until the time was over.
    /// - [`Error::Forked`]: the process is a child in which the call would hang.
    ///
    /// ```
    /// use beglushan::{Error, Pool};
    /// use std::time::Duration;
    ///
    /// let pool = Pool::new(1)?;
    /// std::thread::scope(|threads| {
    ///     for _ in 0..4 {
    ///         threads.spawn(|| assert!(pool.acquire_timeout(Duration::from_secs(60)).is_ok())); // one after another
    ///     }
    /// });
    /// let slot = pool.acquire();
    /// assert_eq!(pool.acquire_timeout(Duration::ZERO).err(), Some(Error::TimedOut));
    /// # Ok::<(), beglushan::Error>(())
    /// ```
    pub fn acquire_timeout(&self, most: Duration) -> Result<Slot<'_>, Error> {
        let held = self.wait(most)?;
        Ok(SlotOf::of(self, held))
    }

    /// [`acquire_timeout`](Pool::acquire_timeout) with a slot that keeps the pool.
    ///
    /// # Errors
    ///
    /// Those of [`acquire_timeout`](Pool::acquire_timeout).
    pub fn acquire_timeout_owned(self: &Arc<Self>, most: Duration) -> Result<OwnedSlot, Error> {
        let held = self.wait(most)?;
        Ok(SlotOf::of(Arc::clone(self), held))
    }

    fn wait(&self, most: Duration) -> Result<Held, Error> {
        let attempt = || self.take_last().ok_or(self.full());
        attempt().or_else(|_| self.waiting.until(most, attempt))
    }
}

/// Calls for tasks.
#[cfg(feature = "async")]
impl Pool {
    /// [`acquire`](Pool::acquire) for a task, which waits while no number is free. Each slot that is dropped wakes the task that
    /// waits longest. It wants no runtime.
    ///
    /// The task may be dropped while it waits.
    pub fn acquire_async(&self) -> Acquire<'_> {
        AcquireOf::of(self)
    }

    /// [`acquire_async`](Pool::acquire_async) with a slot that keeps the pool.
    pub fn acquire_async_owned(self: &Arc<Self>) -> AcquireOwned {
        AcquireOf::of(Arc::clone(self))
    }

    pub(crate) fn waiting(&self) -> &Waiting {
        &self.waiting
    }
}

impl fmt::Debug for Pool {
    fn fmt(&self, f: &mut fmt::Formatter<'_>) -> fmt::Result {
        f.debug_struct("Pool")
            .field("capacity", &self.capacity())
            .field("len", &self.len())
            .finish()
    }
}

/// How a slot has its pool: by reference or by a count, which show one pool for as long as the slot has them. That `Slots` lends
/// each element once stands on it, so no other type can have this.
///
/// ```
/// use beglushan::{Lent, SlotOf};
///
/// /// Of either kind of slot.
/// fn is_first<P: Lent>(slot: &SlotOf<P>) -> bool {
///     slot.number() == 1
/// }
/// ```
pub trait Lent: Deref<Target = Pool> + Clone + sealed::Sealed {}

impl Lent for &Pool {}
impl Lent for Arc<Pool> {}

mod sealed {
    use super::{Arc, Pool};

    pub trait Sealed {}
    impl Sealed for &Pool {}
    impl Sealed for Arc<Pool> {}
}
