//! The values of a `PerThread`, one after another.
#![allow(unsafe_code)]

use crate::per_thread::PerThread;
use crate::values::Entry;
use std::fmt;
use std::iter::{Enumerate, FusedIterator};
use std::slice;
use std::sync::atomic::{AtomicPtr, Ordering::Acquire};
use std::vec;

/// All values of a [`PerThread`], by rising index.
pub struct Iter<'a, T> {
    buckets: Enumerate<slice::Iter<'a, AtomicPtr<Entry<T>>>>,
    entries: slice::Iter<'a, Entry<T>>,
}

impl<'a, T: Sync> Iter<'a, T> {
    pub(crate) fn of(buckets: &'a [AtomicPtr<Entry<T>>]) -> Iter<'a, T> {
        Iter {
            buckets: buckets.iter().enumerate(),
            entries: [].iter(),
        }
    }
}

impl<T> Clone for Iter<'_, T> {
    fn clone(&self) -> Self {
        Iter {
            buckets: self.buckets.clone(),
            entries: self.entries.clone(),
        }
    }
}

impl<'a, T: Sync> Iterator for Iter<'a, T> {
    type Item = &'a T;

    #[inline]
    fn next(&mut self) -> Option<&'a T> {
        loop {
            if let Some(value) = self.entries.find_map(Entry::get) {
                return Some(value);
            }
            let (bucket, at) = self.buckets.next()?;
            // SAFETY: it was allocated as this bucket, and the `PerThread` that frees it is borrowed.
            self.entries = unsafe { Entry::all(at.load(Acquire), bucket) };
        }
    }

    #[inline]
    fn fold<B, F: FnMut(B, &'a T) -> B>(self, first: B, mut add: F) -> B {
        let mut told = self.entries.filter_map(Entry::get).fold(first, &mut add);
        for (bucket, at) in self.buckets {
            // SAFETY: as in `next`.
            let entries = unsafe { Entry::all(at.load(Acquire), bucket) };
            told = entries.filter_map(Entry::get).fold(told, &mut add);
        }
        told
    }
}

impl<T: Sync> FusedIterator for Iter<'_, T> {}

impl<T> fmt::Debug for Iter<'_, T> {
    fn fmt(&self, f: &mut fmt::Formatter<'_>) -> fmt::Result {
        f.debug_struct("Iter").finish_non_exhaustive()
    }
}

/// All values of a [`PerThread`] with nobody using one, by rising index.
pub struct IterMut<'a, T> {
    buckets: Enumerate<slice::IterMut<'a, AtomicPtr<Entry<T>>>>,
    entries: slice::IterMut<'a, Entry<T>>,
}

impl<'a, T> IterMut<'a, T> {
    pub(crate) fn of(buckets: &'a mut [AtomicPtr<Entry<T>>]) -> IterMut<'a, T> {
        IterMut {
            buckets: buckets.iter_mut().enumerate(),
            entries: [].iter_mut(),
        }
    }
}

impl<'a, T> Iterator for IterMut<'a, T> {
    type Item = &'a mut T;

    fn next(&mut self) -> Option<&'a mut T> {
        loop {
            if let Some(value) = self.entries.find_map(Entry::get_mut) {
                return Some(value);
            }
            let (bucket, at) = self.buckets.next()?;
            // SAFETY: it was allocated as this bucket, and the `PerThread` is borrowed alone.
            self.entries = unsafe { Entry::all_mut(*at.get_mut(), bucket) };
        }
    }
}

impl<T> FusedIterator for IterMut<'_, T> {}

impl<T> fmt::Debug for IterMut<'_, T> {
    fn fmt(&self, f: &mut fmt::Formatter<'_>) -> fmt::Result {
        f.debug_struct("IterMut").finish_non_exhaustive()
    }
}

impl<'a, T: Sync> IntoIterator for &'a PerThread<T> {
    type Item = &'a T;
    type IntoIter = Iter<'a, T>;

    fn into_iter(self) -> Iter<'a, T> {
        self.iter()
    }
}

impl<'a, T> IntoIterator for &'a mut PerThread<T> {
    type Item = &'a mut T;
    type IntoIter = IterMut<'a, T>;

    fn into_iter(self) -> IterMut<'a, T> {
        self.iter_mut()
    }
}

impl<T> IntoIterator for PerThread<T> {
    type Item = T;
    type IntoIter = vec::IntoIter<T>;

    fn into_iter(self) -> vec::IntoIter<T> {
        self.into_inner().into_iter()
    }
}
