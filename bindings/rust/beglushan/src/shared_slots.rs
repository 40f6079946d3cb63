//! An array with an element for each number, which all may read.

use crate::error::Error;
use crate::numbers::{Holder, Numbers};
use crate::padded::{padded, Padded};
use core::fmt;
use core::iter::FusedIterator;
use core::ops::Index;
use core::slice;
use std_alloc::{boxed::Box, vec::Vec};

/// One element for each number of a [`Pool`](crate::Pool) or of [`Workers`](crate::Workers), which all threads may read: counters
/// that are summed, epochs that are scanned.
///
/// A slot names the element that its holder alone writes to, by what `T` has of atomics. Each element has a cache line of its
/// own. Who scans names elements by index.
///
/// ```
/// use beglushan::{Pool, SharedSlots};
/// use std::sync::atomic::{AtomicU64, Ordering::Relaxed};
///
/// let pool = Pool::new(4)?;
/// let counters = SharedSlots::new(&pool, |_| AtomicU64::new(0));
/// let slot = pool.acquire().expect("nobody has one yet");
/// let mine = counters.get(&slot);
/// // Nobody else writes to it: a load and a store do.
/// mine.store(mine.load(Relaxed) + 1, Relaxed);
/// assert_eq!(counters.iter().map(|counter| counter.load(Relaxed)).sum::<u64>(), 1);
/// assert_eq!(counters[slot.index()].load(Relaxed), 1);
/// assert!(counters.at(4).is_none());
/// # Ok::<(), beglushan::Error>(())
/// ```
pub struct SharedSlots<T> {
    key: usize,
    elements: Box<[Padded<T>]>,
}

impl<T> SharedSlots<T> {
    /// An array for the numbers of a pool. The element of each number is made from its index.
    ///
    /// # Panics
    ///
    /// If an allocation failed, or if the elements are larger than any allocation can be. [`try_new`](SharedSlots::try_new)
    /// returns an error then.
    pub fn new(numbers: &impl Numbers, make: impl FnMut(usize) -> T) -> SharedSlots<T> {
        SharedSlots::try_new(numbers, make).expect("memory for an element of each number")
    }

    /// The same, with an error in place of a panic.
    ///
    /// # Errors
    ///
    /// [`Error::NoMemory`]: an allocation failed, or the elements are larger than any allocation can be.
    pub fn try_new(
        numbers: &impl Numbers,
        make: impl FnMut(usize) -> T,
    ) -> Result<SharedSlots<T>, Error> {
        Ok(SharedSlots {
            key: numbers.key(),
            elements: padded(numbers.count(), make).ok_or(Error::NoMemory)?,
        })
    }

    /// How many elements there are: as many as there are numbers.
    #[must_use]
    #[allow(clippy::len_without_is_empty)] // no pool has no numbers
    pub fn len(&self) -> usize {
        self.elements.len()
    }

    /// The element of a holder, to be written to while the number is held. It may be kept longer. Then the next holder writes to
    /// it too, and a load and a store may lose what that one wrote.
    ///
    /// # Panics
    ///
    /// If the holder's number is of another pool than the array was made for.
    #[must_use]
    #[inline]
    pub fn get(&self, holder: &impl Holder) -> &T {
        assert_eq!(holder.key(), self.key, "a slot of another pool");
        &self.elements[holder.place()].0
    }

    /// The element of the number `index + 1`. None if there is no such number.
    #[must_use]
    #[inline]
    pub fn at(&self, index: usize) -> Option<&T> {
        self.elements.get(index).map(|element| &element.0)
    }

    /// All elements, by rising number.
    pub fn iter(&self) -> SharedIter<'_, T> {
        SharedIter {
            elements: self.elements.iter(),
        }
    }

    /// The elements, by rising number.
    #[must_use]
    pub fn into_inner(self) -> Vec<T> {
        self.elements
            .into_vec()
            .into_iter()
            .map(|element| element.0)
            .collect()
    }
}

impl<'a, T> IntoIterator for &'a SharedSlots<T> {
    type Item = &'a T;
    type IntoIter = SharedIter<'a, T>;

    fn into_iter(self) -> SharedIter<'a, T> {
        self.iter()
    }
}

/// All elements of a [`SharedSlots`], by rising number.
pub struct SharedIter<'a, T> {
    elements: slice::Iter<'a, Padded<T>>,
}

impl<T> Clone for SharedIter<'_, T> {
    fn clone(&self) -> Self {
        SharedIter {
            elements: self.elements.clone(),
        }
    }
}

impl<'a, T> Iterator for SharedIter<'a, T> {
    type Item = &'a T;

    #[inline]
    fn next(&mut self) -> Option<&'a T> {
        self.elements.next().map(|element| &element.0)
    }

    #[inline]
    fn size_hint(&self) -> (usize, Option<usize>) {
        self.elements.size_hint()
    }

    #[inline]
    fn nth(&mut self, place: usize) -> Option<&'a T> {
        self.elements.nth(place).map(|element| &element.0)
    }

    #[inline]
    fn fold<B, F: FnMut(B, &'a T) -> B>(self, first: B, mut add: F) -> B {
        self.elements
            .fold(first, |told, element| add(told, &element.0))
    }
}

impl<'a, T> DoubleEndedIterator for SharedIter<'a, T> {
    #[inline]
    fn next_back(&mut self) -> Option<&'a T> {
        self.elements.next_back().map(|element| &element.0)
    }
}

impl<T> ExactSizeIterator for SharedIter<'_, T> {}
impl<T> FusedIterator for SharedIter<'_, T> {}

impl<T> fmt::Debug for SharedIter<'_, T> {
    fn fmt(&self, f: &mut fmt::Formatter<'_>) -> fmt::Result {
        f.debug_struct("SharedIter")
            .field("len", &self.elements.len())
            .finish_non_exhaustive()
    }
}

impl<T> Index<usize> for SharedSlots<T> {
    type Output = T;

    /// The element of the number `index + 1`.
    fn index(&self, index: usize) -> &T {
        &self.elements[index].0
    }
}

impl<T> fmt::Debug for SharedSlots<T> {
    fn fmt(&self, f: &mut fmt::Formatter<'_>) -> fmt::Result {
        f.debug_struct("SharedSlots")
            .field("len", &self.elements.len())
            .finish_non_exhaustive()
    }
}
