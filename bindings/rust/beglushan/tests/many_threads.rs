//! Values for very many threads, few at once. It stands alone, since all threads of a program share their numbers.

#![cfg(feature = "std")]

use beglushan::PerThread;
use std::cell::Cell;
use std::sync::atomic::{AtomicU64, Ordering::Relaxed};
use std::thread;

/// Many threads, at most eight at once: few values, and the sum of all.
#[test]
fn many_threads_few_values() {
    const AT_ONCE: usize = 8;
    const THREADS: usize = if cfg!(miri) { 16 } else { 40_000 };
    let counters = PerThread::<AtomicU64>::new();
    let counted = PerThread::<Cell<u64>>::new();
    let count = || {
        counters.with(add_one);
        counted.with(|mine| mine.set(mine.get() + 1));
    };
    thread::scope(|scope| {
        for _ in 0..AT_ONCE {
            scope.spawn(|| {
                for _ in 0..THREADS / AT_ONCE {
                    // A thread that is joined has run its destructors, so at most eight have a place.
                    thread::scope(|inner| inner.spawn(count).join().unwrap());
                }
            });
        }
    });
    assert!(counters.iter().count() <= AT_ONCE);
    assert_eq!(
        counters.sum(|counter| counter.load(Relaxed)),
        THREADS as u64
    );
    assert_eq!(
        counted.into_iter().map(Cell::into_inner).sum::<u64>(),
        THREADS as u64
    );
}

/// By a load and a store, which lose counts where two threads have one counter.
fn add_one(mine: &AtomicU64) {
    mine.store(mine.load(Relaxed) + 1, Relaxed);
}
