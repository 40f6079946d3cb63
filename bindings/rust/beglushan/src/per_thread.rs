//! A value for each thread.
#![allow(unsafe_code)]

use crate::error::Error;
use crate::per_thread_iter::{Iter, IterMut};
use crate::thread::{place_or_nowhere, with_place, Place, BUCKETS};
use crate::values::{Entry, Made};
use std::convert::Infallible;
use std::fmt;
use std::iter::Sum;
use std::marker::PhantomData;
use std::panic::{RefUnwindSafe, UnwindSafe};
use std::ptr;
use std::sync::atomic::{AtomicPtr, Ordering::AcqRel, Ordering::Acquire};

/// A value for each thread, which grows with the threads that there are at once.
///
/// A thread takes a number at its first use of any `PerThread`, and has it until it ends. After that it finds its value by two
/// loads and an index. The value stays when the thread ends, so sums lose nothing. The next thread that is given the number
/// goes on with it. So there are as many values as threads at once, however many threads there ever are.
///
/// ```
/// use beglushan::PerThread;
/// use std::cell::Cell;
///
/// let hits = PerThread::<Cell<u64>>::new();
/// std::thread::scope(|threads| {
///     for _ in 0..8 {
///         threads.spawn(|| hits.with(|mine| mine.set(mine.get() + 1)));
///     }
/// });
/// assert_eq!(hits.into_iter().map(Cell::into_inner).sum::<u64>(), 8);
/// ```
///
/// One for the whole program is a `static`. Who reads values while their threads write to them has atomics in them, or a lock:
///
/// ```
/// use beglushan::PerThread;
/// use std::sync::atomic::{AtomicU64, Ordering::Relaxed};
///
/// static HITS: PerThread<AtomicU64> = PerThread::new();
///
/// HITS.with(|mine| mine.store(mine.load(Relaxed) + 1, Relaxed)); // nobody else writes to it
/// assert_eq!(HITS.sum(|counter| counter.load(Relaxed)), 1);
/// ```
///
/// # What a value needs
///
/// `T: Send` is enough for [`with`](PerThread::with) and its kin, so a `Cell` or a `RefCell` may be a value. The calls that
/// return a reference want `T: Sync`. A reference can outlive the thread's number, in the destructor of another thread-local, and
/// then the next thread has the same value:
///
/// ```compile_fail,E0599
/// let values = beglushan::PerThread::<std::cell::Cell<u64>>::new();
/// let mine = values.get_or_default();
/// ```
///
/// # When a thread ends
///
/// A thread gives its number back in a destructor of a thread-local. A thread that is joined by its handle has run it. A thread
/// of `thread::scope` may run it after the scope has returned. A call in a later destructor of the thread takes another number
/// for that call alone.
///
/// # Which number
///
/// The numbers are those of lines, as [`Workers`](crate::Workers) has them. The first line has 64 numbers, and each further line
/// twice as many, up to 4,096. A number of the first line is at most the most threads that have one at one moment.
///
/// # What waits
///
/// A thread's first use and its end take a mutex for a moment, which no other call takes. A thread's first use of a further
/// `PerThread` takes none.
///
/// # Allocators
///
/// The values' memory is the system allocator's. So an allocator may count by a `PerThread`, with
/// [`try_with`](PerThread::try_with), which answers [`Error::Nested`] where a panic would do harm.
///
/// # After a fork
///
/// The child has a copy of all values. The thread that forked goes on with its own. Threads that begin in the child have
/// numbers that no thread of the parent had, so they begin with new values. No call hangs in the child.
pub struct PerThread<T> {
    /// The last one stays null: it is that of a thread with no number.
    buckets: [AtomicPtr<Entry<T>>; BUCKETS + 1],
    // Neither `Send` nor `Sync` but as below.
    owns: PhantomData<(T, *mut ())>,
}

// SAFETY: it owns its values.
unsafe impl<T: Send> Send for PerThread<T> {}

// SAFETY: a value is lent by a number that one thread has at a time, for the time of a call, which is what `T: Send` allows.
// Calls that lend it for longer, or lend those of other threads, want `T: Sync` besides.
unsafe impl<T: Send> Sync for PerThread<T> {}

impl<T: UnwindSafe> UnwindSafe for PerThread<T> {}
impl<T: RefUnwindSafe> RefUnwindSafe for PerThread<T> {}

impl<T> PerThread<T> {
    /// No values yet. Each is made when its thread first asks for it.
    #[must_use]
    pub const fn new() -> PerThread<T> {
        PerThread {
            buckets: [const { AtomicPtr::new(ptr::null_mut()) }; BUCKETS + 1],
            owns: PhantomData,
        }
    }

    /// No values yet, with memory for those of so many threads.
    ///
    /// # Panics
    ///
    /// If the allocation failed.
    #[must_use]
    pub fn with_capacity(threads: usize) -> PerThread<T> {
        let values = PerThread::new();
        let places = (0..BUCKETS).map(|bucket| Place { bucket, offset: 0 });
        for place in places.take_while(|place| place.index() < threads) {
            let made = values.entry(place);
            made.expect("memory for the values of so many threads");
        }
        values
    }

    /// What `use_it` makes of this thread's value, which is made by `Default` if there is none.
    ///
    /// # Panics
    ///
    /// - If it is called by the `Default` of the same value.
    /// - If the allocation failed at the thread's first use.
    ///
    /// [`try_with`](PerThread::try_with) returns an error then.
    #[inline]
    pub fn with<R>(&self, use_it: impl FnOnce(&T) -> R) -> R
    where
        T: Default,
    {
        self.with_or(T::default, use_it)
    }

    /// [`with`](PerThread::with), with a value that `make` makes if there is none.
    ///
    /// # Panics
    ///
    /// Those of [`with`](PerThread::with).
    #[inline]
    pub fn with_or<R>(&self, make: impl FnOnce() -> T, use_it: impl FnOnce(&T) -> R) -> R {
        granted(self.try_with_or(make, use_it))
    }

    /// [`with`](PerThread::with), with an error in place of a panic.
    ///
    /// # Errors
    ///
    /// - [`Error::Nested`]: the call came from within the `Default` of the same value, or from an allocator that this thread's
    ///   first use calls.
    /// - [`Error::NoMemory`]: an allocation failed, or the values are larger than any allocation can be.
    #[inline]
    pub fn try_with<R>(&self, use_it: impl FnOnce(&T) -> R) -> Result<R, Error>
    where
        T: Default,
    {
        self.try_with_or(T::default, use_it)
    }

    /// [`with_or`](PerThread::with_or), with an error in place of a panic.
    ///
    /// # Errors
    ///
    /// Those of [`try_with`](PerThread::try_with).
    #[inline]
    pub fn try_with_or<R>(
        &self,
        make: impl FnOnce() -> T,
        use_it: impl FnOnce(&T) -> R,
    ) -> Result<R, Error> {
        if let Some(mine) = self.find() {
            return Ok(use_it(mine));
        }
        self.make(|| Ok::<T, Infallible>(make()), use_it)
            .map(|Ok(told)| told)
    }

    /// The index of this thread, from 0, which is the same for all `PerThread`s. The thread takes a number if it has none.
    ///
    /// # Panics
    ///
    /// If an allocation failed.
    #[must_use]
    pub fn index(&self) -> usize {
        granted(with_place(Place::index))
    }

    /// All values that were made, those of threads that ended too.
    pub fn iter_mut(&mut self) -> IterMut<'_, T> {
        IterMut::of(&mut self.buckets)
    }

    /// Drops all values. Each thread makes its own anew.
    pub fn clear(&mut self) {
        for (bucket, at) in self.buckets.iter_mut().enumerate() {
            let at = std::mem::replace(at.get_mut(), ptr::null_mut());
            // SAFETY: it was allocated as this bucket, and nobody finds it.
            unsafe { Entry::free(at, bucket) };
        }
    }

    /// The values that were made.
    #[must_use]
    pub fn into_inner(mut self) -> Vec<T> {
        self.buckets
            .iter_mut()
            .enumerate()
            // SAFETY: the bucket has as many entries, and is borrowed alone.
            .flat_map(|(bucket, at)| unsafe { Entry::all_mut(*at.get_mut(), bucket) })
            .filter_map(Entry::take)
            .collect()
    }

    /// This thread's value, if it has one.
    #[inline(always)]
    fn find(&self) -> Option<&T> {
        let place = place_or_nowhere();
        // SAFETY: a bucket is at most `BUCKETS`, which is that of a thread with no number.
        let at = unsafe { self.buckets.get_unchecked(place.bucket) }.load(Acquire);
        if at.is_null() {
            return None;
        }
        // SAFETY: a bucket that is there has an entry at each of its offsets.
        unsafe { &*at.add(place.offset) }.get()
    }

    /// What `use_it` makes of this thread's value, which is made if there is none.
    #[cold]
    #[inline(never)]
    fn make<'a, R, E>(
        &'a self,
        make: impl FnOnce() -> Result<T, E>,
        use_it: impl FnOnce(&'a T) -> R,
    ) -> Result<Result<R, E>, Error> {
        with_place(|place| {
            // SAFETY: one thread has the place at a time, and has it for the time of this call.
            match unsafe { self.entry(place)?.get_or_make(make) } {
                Made::Value(mine) => Ok(Ok(use_it(mine))),
                Made::Failed(why) => Ok(Err(why)),
                Made::Nested => Err(Error::Nested),
            }
        })?
    }

    /// The entry of a place, in a bucket that is allocated if it is not there.
    fn entry(&self, place: Place) -> Result<&Entry<T>, Error> {
        let bucket = &self.buckets[place.bucket];
        let mut at = bucket.load(Acquire);
        if at.is_null() {
            let new = Entry::allocate(place.bucket).ok_or(Error::NoMemory)?;
            at = match bucket.compare_exchange(ptr::null_mut(), new, AcqRel, Acquire) {
                Ok(_) => new,
                Err(theirs) => {
                    // SAFETY: it was allocated as this bucket, and nobody has seen it.
                    unsafe { Entry::free(new, place.bucket) };
                    theirs
                }
            };
        }
        // SAFETY: a bucket that is there has an entry at each of its offsets, until this is dropped.
        Ok(unsafe { &*at.add(place.offset) })
    }
}

impl<T: Sync> PerThread<T> {
    /// This thread's value, if it has one.
    #[must_use]
    #[inline]
    pub fn get(&self) -> Option<&T> {
        self.find()
    }

    /// This thread's value, which `make` makes if there is none.
    ///
    /// # Panics
    ///
    /// Those of [`with`](PerThread::with).
    #[inline]
    pub fn get_or(&self, make: impl FnOnce() -> T) -> &T {
        granted(self.try_get_or(make))
    }

    /// This thread's value, which is made by `Default` if there is none.
    ///
    /// # Panics
    ///
    /// Those of [`with`](PerThread::with).
    #[inline]
    pub fn get_or_default(&self) -> &T
    where
        T: Default,
    {
        self.get_or(T::default)
    }

    /// This thread's value, which `make` makes if there is none, or the error of `make`.
    ///
    /// # Errors
    ///
    /// The error of `make`.
    ///
    /// # Panics
    ///
    /// Those of [`with`](PerThread::with).
    #[inline]
    pub fn get_or_try<E>(&self, make: impl FnOnce() -> Result<T, E>) -> Result<&T, E> {
        match self.find() {
            Some(mine) => Ok(mine),
            None => granted(self.make(make, |mine| mine)),
        }
    }

    /// [`get_or`](PerThread::get_or), with an error in place of a panic.
    ///
    /// # Errors
    ///
    /// Those of [`try_with`](PerThread::try_with).
    #[inline]
    pub fn try_get_or(&self, make: impl FnOnce() -> T) -> Result<&T, Error> {
        if let Some(mine) = self.find() {
            return Ok(mine);
        }
        self.make(|| Ok::<T, Infallible>(make()), |mine| mine)
            .map(|Ok(mine)| mine)
    }

    /// All values that were made, those of threads that ended too.
    pub fn iter(&self) -> Iter<'_, T> {
        Iter::of(&self.buckets)
    }

    /// The sum over all values that were made.
    pub fn sum<S: Sum>(&self, count: impl FnMut(&T) -> S) -> S {
        self.iter().map(count).sum()
    }
}

/// The value of a call, or a panic with a sentence.
#[inline]
fn granted<R>(told: Result<R, Error>) -> R {
    match told {
        Ok(told) => told,
        Err(why) => refused(why),
    }
}

#[cold]
#[inline(never)]
fn refused(why: Error) -> ! {
    panic!("this thread has no value of the PerThread: {why}")
}

impl<T> Default for PerThread<T> {
    fn default() -> PerThread<T> {
        PerThread::new()
    }
}

impl<T> Drop for PerThread<T> {
    fn drop(&mut self) {
        self.clear();
    }
}

impl<T: Sync + fmt::Debug> fmt::Debug for PerThread<T> {
    fn fmt(&self, f: &mut fmt::Formatter<'_>) -> fmt::Result {
        f.write_str("PerThread ")?;
        f.debug_list().entries(self).finish()
    }
}
