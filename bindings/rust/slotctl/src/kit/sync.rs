//! Locks, and what only proofs know of them, in the place of the kit's `std::sync`.

pub use std::sync::atomic;

use std::sync::{MutexGuard, PoisonError};

/// Leave to wait.
pub trait Wait {
    /// `forever`: turns without end.
    fn forever(&self) -> std::iter::Repeat<()> {
        std::iter::repeat(())
    }
}

/// A value that one thread has at a time.
pub struct Mutex<T> {
    inner: std::sync::Mutex<T>,
}

impl<T> Mutex<T> {
    /// `new`: a lock around a value.
    pub fn new(value: T) -> Mutex<T> {
        Mutex {
            inner: std::sync::Mutex::new(value),
        }
    }

    /// `lock`: waits for the value. Nothing of Rattle unwinds, so no lock is poisoned.
    pub fn lock<R: Wait>(&self, _rt: &R) -> MutexGuard<'_, T> {
        self.inner.lock().unwrap_or_else(PoisonError::into_inner)
    }

    /// `into_inner`: the value.
    pub fn into_inner(self) -> T {
        self.inner
            .into_inner()
            .unwrap_or_else(PoisonError::into_inner)
    }
}

/// Counts that proofs keep. None of them has bytes.
pub mod ledger {
    use std::marker::PhantomData;

    /// What names a ledger.
    pub trait Ledger {}

    impl Ledger for super::super::marker::Brand {}

    /// A ledger with no name yet.
    pub struct Blank;

    /// What a ledger counts.
    pub struct Book<L> {
        of: PhantomData<fn(L)>,
    }

    /// A part of a ledger.
    pub struct Share<L> {
        of: PhantomData<fn(L)>,
    }

    impl Blank {
        /// `new`: a ledger of so many parts.
        pub fn new(_parts: u64) -> Blank {
            Blank
        }

        /// `open`: its book, and a share with all parts.
        pub fn open<L: Ledger>(self) -> (Book<L>, Share<L>) {
            (Book { of: PhantomData }, Share { of: PhantomData })
        }
    }

    impl<L: Ledger> Book<L> {
        /// `add`: counts an amount for a share.
        pub fn add(&mut self, _share: &mut Share<L>, _amount: u64) {}
    }

    impl<L: Ledger> Share<L> {
        /// `merge`: takes in another share.
        pub fn merge(&mut self, _other: Share<L>) {}

        /// `split_off`: a share of its own, of so many parts.
        pub fn split_off(&mut self, _parts: u64, _amount: u64) -> Share<L> {
            Share { of: PhantomData }
        }
    }
}
