//! The number that a thread had last of a pool. It stands alone, since a thread remembers those of pools that were made one after another.

#![cfg(feature = "std")]

use beglushan::{PerThread, Pool};
use std::sync::Mutex;
use std::thread;

/// One test at a time makes pools.
static ALONE: Mutex<()> = Mutex::new(());

/// A thread has the number that it had last, pool by pool, of sixteen pools.
#[test]
fn the_last_number_again() {
    let _alone = ALONE.lock();
    let pools: Vec<Pool> = (0..16).map(|_| Pool::new(8).unwrap()).collect();
    for (place, pool) in pools.iter().enumerate() {
        let number = 1 + place % 8;
        assert_eq!(pool.acquire_near(number).unwrap().number(), number);
    }
    for _ in 0..3 {
        for (place, pool) in pools.iter().enumerate() {
            assert_eq!(pool.acquire().unwrap().number(), 1 + place % 8);
            assert_eq!(pool.acquire_least().unwrap().number(), 1);
            drop(pool.acquire_near(1 + place % 8));
        }
    }
}

/// Any number of pools is served, whatever a thread remembers.
#[test]
fn a_hundred_pools() {
    let _alone = ALONE.lock();
    let pools: Vec<Pool> = (0..100).map(|_| Pool::new(8).unwrap()).collect();
    for _ in 0..3 {
        assert!(pools.iter().all(|pool| pool.acquire().is_some()));
    }
    assert!(pools.iter().all(Pool::is_empty));
}

/// Threads that remember nothing of a pool begin at the number that they have by `PerThread`.
#[test]
fn threads_begin_apart() {
    let _alone = ALONE.lock();
    static VALUES: PerThread<u8> = PerThread::new();
    let pool = Pool::new(4096).unwrap();
    let first = VALUES.index() + 1;
    assert_eq!(pool.acquire().unwrap().number(), first);
    thread::scope(|scope| {
        let begins = || {
            let index = VALUES.index();
            (pool.acquire().unwrap().number(), index + 1)
        };
        let (number, theirs) = scope.spawn(begins).join().unwrap();
        assert_eq!(number, theirs);
        assert_ne!(number, first);
    });
}

/// A thread that uses one pool for long, and then another, has its last number of each. So it is while it holds a slot of the first,
/// and after pools were dropped that it had used for long.
#[test]
fn one_pool_for_long_and_then_another() {
    let _alone = ALONE.lock();
    const STAYS: usize = 200;
    let again = |pool: &Pool, number: usize| {
        for _ in 0..STAYS {
            assert_eq!(pool.acquire().unwrap().number(), number);
        }
    };
    for round in 0..5 {
        let pools: Vec<Pool> = (0..3 + round).map(|_| Pool::new(16).unwrap()).collect();
        for (place, pool) in pools.iter().enumerate() {
            drop(pool.acquire_near(2 + place));
            again(pool, 2 + place);
        }
        let held = pools[0].acquire().unwrap();
        assert_eq!(held.number(), 2);
        drop(pools[0].acquire_near(11));
        again(&pools[0], 11);
        again(&pools[2], 4);
        // Two that are held at once, and given back in both orders.
        for _ in 0..STAYS {
            let (one, other) = (pools[0].acquire().unwrap(), pools[0].acquire().unwrap());
            assert!(one.number() != other.number() && other.number() != 2);
            drop((other, one));
            let (one, other) = (pools[0].acquire().unwrap(), pools[0].acquire().unwrap());
            drop((one, other));
        }
        drop(held);
        again(&pools[1], 3);
        assert!(pools.iter().all(Pool::is_empty));
    }
}
