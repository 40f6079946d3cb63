//! What the tests of the crate `thread_local` (1.1, Amanieu d'Antras, MIT or Apache-2.0) ask of a value for each thread, asked here
//! of `PerThread` in words of our own: its tests of one thread, of another thread, of iterators, of drops and of early returns,
//! that it may be shared, and its two examples.

#![cfg(feature = "std")]

use beglushan::PerThread;
use std::cell::{Cell, RefCell};
use std::sync::atomic::{AtomicUsize, Ordering::Relaxed};
use std::sync::mpsc::channel;
use std::sync::{Arc, Barrier};
use std::thread;

/// Values that count how many were made.
fn counting() -> impl Fn() -> usize + Send + Sync {
    let made = AtomicUsize::new(0);
    move || made.fetch_add(1, Relaxed)
}

/// One thread has one value, until all are cleared.
#[test]
fn in_one_thread() {
    let make = counting();
    let mut values = PerThread::new();
    assert_eq!(values.get(), None);
    assert_eq!(format!("{values:?}"), "PerThread []");
    for _ in 0..2 {
        assert_eq!(values.get_or(&make), &0);
        assert_eq!(values.get(), Some(&0));
    }
    assert_eq!(format!("{values:?}"), "PerThread [0]");
    values.clear();
    assert_eq!(values.get(), None);
}

/// Another thread has a value of its own.
#[test]
fn in_another_thread() {
    let make = Arc::new(counting());
    let values = Arc::new(PerThread::new());
    assert_eq!(values.get_or(&*make), &0);
    let (theirs, makes) = (Arc::clone(&values), Arc::clone(&make));
    let there = move || {
        assert_eq!(theirs.get(), None);
        assert_eq!(theirs.get_or(&*makes), &1);
        assert_eq!(theirs.get(), Some(&1));
    };
    thread::spawn(there).join().unwrap();
    assert_eq!(values.get(), Some(&0));
    assert_eq!(values.get_or(&*make), &0);
}

/// Each iterator finds the values of threads that ended, and of threads inside others.
#[test]
fn by_iterators() {
    let mut values = PerThread::new();
    values.get_or(|| Box::new(1));
    thread::scope(|scope| {
        scope.spawn(|| {
            values.get_or(|| Box::new(2));
            thread::scope(|inner| {
                inner.spawn(|| assert_eq!(**values.get_or(|| Box::new(3)), 3));
            });
        });
    });
    let sorted = |mut all: Vec<i32>| {
        all.sort_unstable();
        all
    };
    assert_eq!(sorted(values.iter().map(|one| **one).collect()), [1, 2, 3]);
    assert_eq!(
        sorted((&values).into_iter().map(|one| **one).collect()),
        [1, 2, 3]
    );
    assert_eq!(
        sorted(values.iter_mut().map(|one| **one).collect()),
        [1, 2, 3]
    );
    assert_eq!(
        sorted(values.into_iter().map(|one| *one).collect()),
        [1, 2, 3]
    );
}

/// An iterator reads values while other threads make theirs.
#[test]
fn iterated_while_others_begin() {
    const THREADS: usize = if cfg!(miri) { 4 } else { 64 };
    let values = PerThread::new();
    let gate = Barrier::new(THREADS + 1);
    let (values, gate) = (&values, &gate);
    thread::scope(|scope| {
        for id in 0..THREADS {
            scope.spawn(move || {
                gate.wait();
                values.get_or(|| Box::new(id));
                gate.wait();
            });
        }
        gate.wait();
        for _ in 0..if cfg!(miri) { 3 } else { 1000 } {
            assert!(values.iter().all(|one| **one < THREADS));
        }
        gate.wait();
    });
    assert_eq!(values.iter().count(), THREADS);
}

/// Values are dropped with what has them, and not when their threads end.
#[test]
fn dropped_once() {
    struct Dropped(Arc<AtomicUsize>);
    impl Drop for Dropped {
        fn drop(&mut self) {
            self.0.fetch_add(1, Relaxed);
        }
    }
    let count = Arc::new(AtomicUsize::new(0));
    let values = Arc::new(PerThread::new());
    let make = |count: &Arc<AtomicUsize>| Dropped(Arc::clone(count));
    values.get_or(|| make(&count));
    let (theirs, counts) = (Arc::clone(&values), Arc::clone(&count));
    let there = move || {
        theirs.get_or(|| make(&counts));
    };
    thread::spawn(there).join().unwrap();
    assert_eq!(count.load(Relaxed), 0);
    drop(values);
    assert_eq!(count.load(Relaxed), 2);
}

/// All values are found where some bucket before theirs was never used.
#[test]
fn behind_buckets_that_are_not_there() {
    const THREADS: usize = if cfg!(miri) { 4 } else { 40 };
    let first = PerThread::new();
    let later = PerThread::new();
    let gate = Barrier::new(THREADS);
    let (first, later, gate) = (&first, &later, &gate);
    thread::scope(|scope| {
        for id in 0..THREADS {
            scope.spawn(move || {
                first.get_or(|| id);
                gate.wait();
                if first.index() + 1 == THREADS || first.index() >= THREADS {
                    later.get_or(|| id);
                }
                gate.wait();
            });
        }
    });
    let mut later_only = PerThread::new();
    assert!(later.iter().count() >= 1);
    assert_eq!(later_only.iter_mut().count(), 0);
    later_only.get_or(|| 7);
    assert_eq!(later_only.into_iter().collect::<Vec<_>>(), [7]);
}

#[test]
fn may_be_shared() {
    fn is_shared<T: Sync>() {}
    is_shared::<PerThread<String>>();
    is_shared::<PerThread<RefCell<String>>>();
}

/// Its first example: five threads count, each in a cell, and all is summed.
#[test]
fn five_threads_count() {
    let counts = Arc::new(PerThread::new());
    let threads: Vec<_> = (0..5)
        .map(|_| {
            let counts = Arc::clone(&counts);
            thread::spawn(move || {
                counts.with_or(|| Cell::new(0), |mine| mine.set(mine.get() + 1));
            })
        })
        .collect();
    threads
        .into_iter()
        .for_each(|thread| thread.join().unwrap());
    let counts = Arc::into_inner(counts).unwrap();
    assert_eq!(counts.into_iter().fold(0, |sum, one| sum + one.get()), 5);
}

/// Its second example: values by `Default`, and those of threads that ended.
#[test]
fn by_default() {
    let counts = PerThread::<Cell<u32>>::default();
    let (send, receive) = channel();
    thread::scope(|scope| {
        for add in 1..=4 {
            let (counts, send) = (&counts, send.clone());
            scope.spawn(move || {
                counts.with(|mine| mine.set(mine.get() + add));
                send.send(add).unwrap();
            });
        }
    });
    drop(send);
    assert_eq!(receive.iter().sum::<u32>(), 10);
    assert_eq!(counts.into_iter().map(Cell::into_inner).sum::<u32>(), 10);
}
