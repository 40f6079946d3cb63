//! What the tests of the thread registry of the crate `sharded_slab` (0.1, Eliza Weisman, MIT) ask of a thread's number, asked here of
//! `PerThread::index` and of `Workers` in words of our own: a number comes back when its thread ends, threads at once have
//! different numbers, and threads one after another need no more numbers than one.

#![cfg(feature = "std")]

use beglushan::{PerThread, Workers};
use std::collections::BTreeSet;
use std::sync::{Arc, Barrier};
use std::thread;

const THREADS: usize = if cfg!(miri) { 4 } else { 32 };

/// Threads at once have different indices, and a later crowd has those of the earlier one.
#[test]
fn numbers_come_back() {
    static VALUES: PerThread<u8> = PerThread::new();
    let crowd = || {
        let gate = Arc::new(Barrier::new(THREADS));
        let begin = || {
            let gate = Arc::clone(&gate);
            thread::spawn(move || {
                let index = VALUES.index();
                gate.wait();
                index
            })
        };
        let threads: Vec<_> = (0..THREADS).map(|_| begin()).collect();
        threads
            .into_iter()
            .map(|thread| thread.join().unwrap())
            .collect::<BTreeSet<usize>>()
    };
    let (first, second) = (crowd(), crowd());
    assert_eq!(first.len(), THREADS, "two threads had one index");
    assert_eq!(first, second, "an index did not come back");
}

/// A thousand workers one after another have one number.
#[test]
fn one_after_another() {
    let workers = Arc::new(Workers::new(4).unwrap());
    for _ in 0..if cfg!(miri) { 5 } else { 1000 } {
        let workers = Arc::clone(&workers);
        let number = move || workers.attach().unwrap().stay().number();
        assert_eq!(thread::spawn(number).join().unwrap(), 1);
    }
}

/// A number that its worker gave back in one thread is another's in the next.
#[test]
fn reused_across_threads() {
    let workers = Workers::new(2).unwrap();
    let mut here = workers.attach().unwrap();
    assert_eq!(here.stay().number(), 1);
    thread::scope(|scope| {
        let there = scope.spawn(|| workers.attach().unwrap().stay().number());
        assert_eq!(there.join().unwrap(), 2);
    });
    here.rest();
    thread::scope(|scope| {
        let there = scope.spawn(|| workers.attach().unwrap().stay().number());
        assert_eq!(there.join().unwrap(), 1);
    });
}
