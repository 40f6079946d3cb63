//! The values of a `PerThread`, in buckets.
#![allow(unsafe_code)]

use std::alloc::{GlobalAlloc, Layout, System};
use std::cell::UnsafeCell;
use std::mem::{forget, MaybeUninit};
use std::sync::atomic::{AtomicU8, Ordering::Acquire, Ordering::Relaxed, Ordering::Release};

const EMPTY: u8 = 0;
const MAKING: u8 = 1;
const READY: u8 = 2;

/// The value of one place. Zero bytes are a place with no value. It has a cache line of its own, and the next one too.
#[repr(align(128))]
pub(crate) struct Entry<T> {
    state: AtomicU8,
    value: UnsafeCell<MaybeUninit<T>>,
}

// SAFETY: a shared entry lends its value alone, and only once it is made. `get_or_make` says what its caller owes.
unsafe impl<T: Send + Sync> Sync for Entry<T> {}

/// What a place has.
pub(crate) enum Made<'a, T, E> {
    Value(&'a T),
    /// The error of who was to make the value.
    Failed(E),
    /// This call is from within the one that makes the value.
    Nested,
}

impl<T> Entry<T> {
    /// The value, if it is made.
    #[inline(always)]
    pub(crate) fn get(&self) -> Option<&T> {
        if self.state.load(Acquire) == READY {
            // SAFETY: the value was written before it was told ready, and stays until the entry is borrowed alone.
            return Some(unsafe { (*self.value.get()).assume_init_ref() });
        }
        None
    }

    /// The value, which is made if there is none. A function of its own, since a value that has no room on the heap may have none
    /// on the stack.
    ///
    /// # Safety
    /// No other thread calls this meanwhile.
    #[inline(never)]
    pub(crate) unsafe fn get_or_make<E>(
        &self,
        make: impl FnOnce() -> Result<T, E>,
    ) -> Made<'_, T, E> {
        if let Some(value) = self.get() {
            return Made::Value(value);
        }
        if self.state.load(Relaxed) == MAKING {
            return Made::Nested;
        }
        self.state.store(MAKING, Relaxed);
        let undo = Undo(&self.state);
        let value = match make() {
            Ok(value) => value,
            Err(why) => return Made::Failed(why),
        };
        // SAFETY: nobody reads it before it is told ready, and no other call makes it, in this thread or another.
        let value = unsafe { (*self.value.get()).write(value) };
        forget(undo);
        self.state.store(READY, Release);
        Made::Value(value)
    }

    /// The value, if it is made, with nobody using it.
    pub(crate) fn get_mut(&mut self) -> Option<&mut T> {
        // SAFETY: the value was written before it was told ready.
        (*self.state.get_mut() == READY).then(|| unsafe { self.value.get_mut().assume_init_mut() })
    }

    /// Takes the value out, if it is made.
    pub(crate) fn take(&mut self) -> Option<T> {
        let is_ready = std::mem::replace(self.state.get_mut(), EMPTY) == READY;
        // SAFETY: the value was written before it was told ready, and is told so no longer.
        is_ready.then(|| unsafe { self.value.get_mut().assume_init_read() })
    }

    fn layout(bucket: usize) -> Option<Layout> {
        let count = 1_usize.checked_shl(bucket as u32)?;
        Layout::array::<Entry<T>>(count).ok()
    }

    /// A bucket with no values. None if the allocation failed, or if there can be none so large.
    pub(crate) fn allocate(bucket: usize) -> Option<*mut Entry<T>> {
        let layout = Entry::<T>::layout(bucket)?;
        // SAFETY: an entry is not empty, and there is at least one.
        let at = unsafe { System.alloc_zeroed(layout) };
        (!at.is_null()).then_some(at.cast())
    }

    /// Drops the values of a bucket and frees it. A null pointer is let be.
    ///
    /// # Safety
    /// `allocate` gave the pointer for this bucket, or it is null, and nobody uses it.
    pub(crate) unsafe fn free(at: *mut Entry<T>, bucket: usize) {
        let Some(layout) = Entry::<T>::layout(bucket).filter(|_| !at.is_null()) else {
            return;
        };
        let freed = Freed(at, layout);
        // SAFETY: as the caller owes it.
        let entries = unsafe { Entry::all_mut(at, bucket) };
        entries.for_each(|entry| drop(entry.take()));
        drop(freed);
    }

    /// The entries of a bucket. A null pointer has none.
    ///
    /// # Safety
    /// `allocate` gave the pointer for this bucket, or it is null, and it is not freed for so long.
    pub(crate) unsafe fn all<'a>(
        at: *mut Entry<T>,
        bucket: usize,
    ) -> std::slice::Iter<'a, Entry<T>> {
        if at.is_null() {
            return [].iter();
        }
        // SAFETY: as the caller owes it; zero bytes are an entry.
        unsafe { std::slice::from_raw_parts(at, 1 << bucket) }.iter()
    }

    /// The same, with nobody else using them.
    ///
    /// # Safety
    /// As `all`; and nobody else uses the entries for so long.
    pub(crate) unsafe fn all_mut<'a>(
        at: *mut Entry<T>,
        bucket: usize,
    ) -> std::slice::IterMut<'a, Entry<T>> {
        if at.is_null() {
            return [].iter_mut();
        }
        // SAFETY: as the caller owes it; zero bytes are an entry.
        unsafe { std::slice::from_raw_parts_mut(at, 1 << bucket) }.iter_mut()
    }
}

/// Makes a place empty again whose value was not made, in a panic too.
struct Undo<'a>(&'a AtomicU8);

impl Drop for Undo<'_> {
    fn drop(&mut self) {
        self.0.store(EMPTY, Relaxed);
    }
}

/// Frees a bucket, even if the drop of a value panics.
struct Freed<T>(*mut Entry<T>, Layout);

impl<T> Drop for Freed<T> {
    fn drop(&mut self) {
        // SAFETY: it was allocated by this layout, and nobody uses it.
        unsafe { System.dealloc(self.0.cast(), self.1) };
    }
}
