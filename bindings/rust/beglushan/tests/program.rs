//! Workers of the whole program, to which a thread is attached by its first stay.

#![cfg(feature = "std")]

use beglushan::{Error, SharedSlots, Slots, Workers};
use std::panic::{catch_unwind, AssertUnwindSafe};
use std::sync::atomic::{AtomicU64, Ordering::Relaxed};
use std::sync::{Arc, LazyLock, OnceLock};
use std::thread;

/// Workers that live as long as the program.
fn leaked(capacity: usize) -> &'static Workers {
    Box::leak(Box::new(Workers::new(capacity).unwrap()))
}

/// A thread keeps its number between stays, and gives it back when it ends.
#[test]
fn kept_until_the_thread_ends() {
    let workers = leaked(2);
    assert_eq!(workers.with(|stay| stay.number()), 1);
    for _ in 0..if cfg!(miri) { 3 } else { 1000 } {
        let theirs = move || [(); 3].map(|()| workers.with(|stay| stay.number()));
        assert_eq!(thread::spawn(theirs).join().unwrap(), [2; 3]);
    }
    assert_eq!(workers.with(|stay| stay.number()), 1);
}

/// A stay within a stay has a number of its own, and so an element of its own.
#[test]
fn a_stay_within_a_stay() {
    static WORKERS: LazyLock<Workers> = LazyLock::new(|| Workers::new(3).unwrap());
    let elements = Slots::new(&*WORKERS, |index| index);
    let deep = || {
        WORKERS.with(|outer| {
            let (index, mine) = elements.get_indexed(outer);
            WORKERS.with(|inner| {
                let (next, theirs) = elements.get_indexed(inner);
                std::mem::swap(mine, theirs);
                let last = WORKERS.with(|innermost| innermost.index());
                assert_eq!(index + next + last, 3, "three numbers");
                let none = WORKERS.with(|_| WORKERS.try_with(|_| ()));
                assert_eq!(none, Err(Error::Full { most: 3 }));
            });
        });
    };
    for _ in 0..4 {
        deep();
    }
    let mut all = elements.into_inner();
    all.sort_unstable();
    assert_eq!(all, [0, 1, 2]);
}

/// A thread has a worker of each, however many workers there are.
#[test]
fn many_workers() {
    let all: Vec<&Workers> = (0..20).map(|_| leaked(1)).collect();
    for _ in 0..3 {
        for workers in &all {
            assert_eq!(workers.with(|stay| stay.number()), 1);
        }
    }
    thread::scope(|scope| {
        scope.spawn(|| {
            let none = Err(Error::Full { most: 1 });
            assert!(all.iter().all(|workers| workers.try_with(|_| ()) == none));
        });
    });
}

#[test]
fn in_a_panic() {
    let workers = leaked(1);
    let falls = || workers.with(|_| panic!("in a stay"));
    assert!(catch_unwind(AssertUnwindSafe(falls)).is_err());
    assert_eq!(workers.with(|stay| stay.number()), 1);
    let nested = || workers.with(|_| workers.with(|_| ()));
    let sentence = catch_unwind(AssertUnwindSafe(nested)).unwrap_err();
    let sentence = sentence.downcast::<String>().unwrap();
    assert_eq!(
        *sentence,
        "this thread can't be attached: all of 1 places are taken"
    );
}

/// A stay in the destructor of another thread-local has a number for that call.
#[test]
fn in_destructors() {
    static WORKERS: LazyLock<Workers> = LazyLock::new(|| Workers::new(2).unwrap());
    static SEEN: AtomicU64 = AtomicU64::new(0);
    struct Last;
    impl Drop for Last {
        fn drop(&mut self) {
            WORKERS.with(|stay| SEEN.fetch_add(stay.number() as u64, Relaxed));
        }
    }
    thread_local!(static LAST: Last = const { Last });
    for turn in 0..20 {
        let ends = move || {
            if turn % 2 == 0 {
                LAST.with(|_| ());
            }
            WORKERS.with(|stay| assert_eq!(stay.number(), 1));
            LAST.with(|_| ());
        };
        thread::spawn(ends).join().unwrap();
    }
    assert_eq!(SEEN.load(Relaxed), 20);
}

/// Threads that come and go count by plain additions, and no count is lost.
#[test]
fn threads_that_come_and_go() {
    const THREADS: usize = if cfg!(miri) { 8 } else { 2000 };
    static WORKERS: LazyLock<Workers> = LazyLock::new(|| Workers::new(8).unwrap());
    static COUNTS: OnceLock<Slots<u64>> = OnceLock::new();
    COUNTS.get_or_init(|| Slots::new(&*WORKERS, |_| 0));
    let seen = Arc::new(SharedSlots::new(&*WORKERS, |_| AtomicU64::new(0)));
    for _ in 0..THREADS / 4 {
        let begin = |_| {
            let seen = Arc::clone(&seen);
            thread::spawn(move || {
                for _ in 0..100 {
                    WORKERS.with(|stay| {
                        *COUNTS.get().unwrap().get(stay) += 1;
                        seen.get(stay).fetch_add(1, Relaxed);
                    });
                }
            })
        };
        let threads: Vec<_> = (0..4).map(begin).collect();
        threads
            .into_iter()
            .for_each(|thread| thread.join().unwrap());
    }
    let sum: u64 = seen.iter().map(|word| word.load(Relaxed)).sum();
    assert_eq!(sum, (THREADS / 4 * 4 * 100) as u64);
    assert!(seen.iter().skip(4).all(|word| word.load(Relaxed) == 0));
    WORKERS.with(|stay| {
        let seen = seen.get(stay).load(Relaxed);
        assert_eq!(*COUNTS.get().unwrap().get(stay), seen);
    });
}
