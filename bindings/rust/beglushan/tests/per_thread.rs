//! Values for threads that begin and end.

#![cfg(feature = "std")]

use beglushan::{Error, PerThread};
use std::cell::{Cell, RefCell};
use std::panic::{catch_unwind, AssertUnwindSafe};
use std::sync::atomic::{AtomicU64, AtomicUsize, Ordering::Relaxed};
use std::sync::{Arc, Barrier};
use std::thread;

#[test]
fn one_value_a_thread() {
    let made = AtomicUsize::new(0);
    let values = PerThread::<usize>::new();
    let make = || made.fetch_add(1, Relaxed);
    let mine = *values.get_or(make);
    assert_eq!(*values.get_or(make), mine);
    let gate = Barrier::new(3);
    thread::scope(|scope| {
        for _ in 0..3 {
            scope.spawn(|| {
                let theirs = *values.get_or(make);
                gate.wait();
                assert_eq!(*values.get_or(make), theirs);
                assert_ne!(theirs, mine);
            });
        }
    });
    assert_eq!(made.load(Relaxed), 4);
    let mut all: Vec<usize> = values.iter().copied().collect();
    all.sort_unstable();
    assert_eq!(all, [0, 1, 2, 3]);
}

/// An iterator goes to another thread, and a clone of it begins where it stands.
#[test]
fn iterators_go_and_are_cloned() {
    let values = PerThread::<u64>::new();
    let gate = Barrier::new(3);
    thread::scope(|scope| {
        for id in 0..3 {
            let (values, gate) = (&values, &gate);
            scope.spawn(move || {
                values.get_or(|| id);
                gate.wait();
            });
        }
    });
    let mut all = values.iter();
    let first = *all.next().unwrap();
    let again = all.clone();
    let rest = thread::scope(|scope| scope.spawn(move || all.sum::<u64>()).join().unwrap());
    assert_eq!((first + rest, again.count()), (3, 2));
}

/// By a load and a store, which lose counts where two threads have one counter.
fn add_one(mine: &AtomicU64) {
    mine.store(mine.load(Relaxed) + 1, Relaxed);
}

/// Many of them by turns, in several threads.
#[test]
fn many_side_by_side() {
    let all: Vec<PerThread<AtomicU64>> = (0..200).map(|_| PerThread::new()).collect();
    thread::scope(|scope| {
        for _ in 0..3 {
            scope.spawn(|| {
                for _ in 0..10 {
                    all.iter().for_each(|counters| counters.with(add_one));
                }
            });
        }
    });
    assert!(all
        .iter()
        .all(|counters| counters.sum(|counter| counter.load(Relaxed)) == 30));
}

/// More threads at once than the first line has numbers, with memory at hand for some.
#[test]
fn more_threads_than_a_line() {
    const THREADS: usize = if cfg!(miri) { 8 } else { 300 };
    let values = PerThread::<Cell<u64>>::with_capacity(100);
    let gate = Barrier::new(THREADS);
    thread::scope(|scope| {
        for id in 0..THREADS as u64 {
            let (values, gate) = (&values, &gate);
            scope.spawn(move || {
                values.with(|mine| mine.set(mine.get() + id));
                gate.wait();
                values.with(|mine| assert_eq!(mine.get(), id, "somebody else wrote here"));
                gate.wait();
            });
        }
    });
    let sum: u64 = values.into_iter().map(Cell::into_inner).sum();
    assert_eq!(sum, (0..THREADS as u64).sum());
}

/// A value that is used by the destructor of another thread-local is not somebody else's.
#[test]
fn in_destructors() {
    struct Last(Cell<Option<Arc<PerThread<Cell<u64>>>>>);
    impl Drop for Last {
        fn drop(&mut self) {
            if let Some(counters) = self.0.take() {
                counters.with(|mine| {
                    mine.set(mine.get() + 1);
                    // Another value, or the same.
                    counters.with(|mine| mine.set(mine.get() + 1));
                });
            }
        }
    }
    thread_local!(static LAST: Last = const { Last(Cell::new(None)) });
    let counters = Arc::new(PerThread::<Cell<u64>>::new());
    for turn in 0..if cfg!(miri) { 4 } else { 100 } {
        let theirs = Arc::clone(&counters);
        let set = move || {
            if turn % 2 == 0 {
                theirs.with(|mine| mine.set(mine.get() + 1));
            }
            LAST.with(|last| last.0.set(Some(Arc::clone(&theirs))));
            theirs.with(|mine| mine.set(mine.get() + 1));
        };
        thread::spawn(set).join().unwrap();
    }
    let counters = Arc::into_inner(counters).unwrap();
    let told: u64 = counters.into_iter().map(Cell::into_inner).sum();
    assert_eq!(told, if cfg!(miri) { 14 } else { 350 });
}

/// Values are set back, and taken out, when nobody uses them.
#[test]
fn set_back_and_taken_out() {
    let mut counters = PerThread::<AtomicU64>::new();
    counters.with(add_one);
    counters
        .iter_mut()
        .for_each(|counter| *counter.get_mut() = 7);
    counters.with(add_one);
    for counter in &mut counters {
        *counter.get_mut() += 1;
    }
    for counter in &counters {
        assert_eq!(counter.load(Relaxed), 9);
    }
    counters.clear();
    assert!(counters.get().is_none() && counters.iter().next().is_none());
    counters.with(add_one);
    let all: Vec<u64> = counters
        .into_inner()
        .into_iter()
        .map(AtomicU64::into_inner)
        .collect();
    assert_eq!(all, [1]);
}

/// Those that were dropped are forgotten, and a new one is not taken for an old one.
#[test]
fn made_and_dropped() {
    for turn in 0..if cfg!(miri) { 10 } else { 1000 } {
        let values = PerThread::<u64>::new();
        assert_eq!(*values.get_or(|| turn), turn);
    }
}

/// A value whose making asks for the same value is refused by an error or a sentence, and never hangs.
#[test]
fn within_itself() {
    let values = PerThread::<u64>::new();
    let nested = || values.try_get_or(|| 2).err();
    let mut told = None;
    assert_eq!(
        *values.get_or(|| {
            told = nested();
            assert!(values.get().is_none());
            1
        }),
        1
    );
    assert_eq!(told, Some(Error::Nested));
    let values = PerThread::<u64>::new();
    let caught = catch_unwind(AssertUnwindSafe(|| *values.get_or(|| *values.get_or(|| 1))));
    let sentence = caught.unwrap_err().downcast::<String>().unwrap();
    assert!(sentence.ends_with("called from within the call that makes the value"));
    assert_eq!(*values.get_or(|| 3), 3, "the place is free after a panic");
}

#[derive(Debug)]
struct Itself;

static OF_ITSELF: PerThread<Itself> = PerThread::new();

impl Default for Itself {
    fn default() -> Itself {
        let nested = OF_ITSELF.try_with(|_| ());
        assert_eq!(nested, Err(Error::Nested));
        Itself
    }
}

#[test]
fn a_default_that_asks_for_itself() {
    OF_ITSELF.with(|_| ());
}

#[test]
fn tried() {
    let values = PerThread::<String>::new();
    assert_eq!(values.get_or_try(|| Err::<String, _>("no")), Err("no"));
    assert_eq!(
        values
            .get_or_try(|| Ok::<_, ()>("yes".to_string()))
            .unwrap(),
        "yes"
    );
    assert_eq!(values.get_or_default(), "yes");
    assert_eq!(values.get().map(String::as_str), Some("yes"));
    assert_eq!(format!("{values:?}"), "PerThread [\"yes\"]");
}

/// A value in a `RefCell`, which its thread changes.
#[test]
fn in_a_cell() {
    let lists = PerThread::<RefCell<Vec<usize>>>::default();
    thread::scope(|scope| {
        for id in 0..4 {
            let lists = &lists;
            scope.spawn(move || {
                (0..10).for_each(|_| lists.with(|mine| mine.borrow_mut().push(id)));
            });
        }
    });
    let mut all: Vec<usize> = lists.into_iter().flat_map(RefCell::into_inner).collect();
    all.sort_unstable();
    assert_eq!(all.len(), 40);
    assert_eq!(all[35], 3);
}

/// A value for which there is no room is refused by an error.
#[test]
#[cfg_attr(miri, ignore = "it wants an allocator that refuses")]
fn too_large() {
    type Huge = [u8; 1 << 46];
    let values = PerThread::<Huge>::new();
    let told = values.try_with_or(|| unreachable!("there is no room"), |_| ());
    assert_eq!(told, Err(Error::NoMemory));
}

/// All `PerThread`s have one index for a thread.
#[test]
fn one_index() {
    let (one, other) = (PerThread::<u8>::new(), PerThread::<String>::new());
    assert_eq!(one.index(), other.index());
    let theirs = thread::scope(|scope| scope.spawn(|| one.index()).join().unwrap());
    assert_ne!(theirs, one.index());
}
