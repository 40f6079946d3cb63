//! The pool, its slots and its arrays, from one thread and from many.

#![cfg(feature = "std")]

use beglushan::{Error, OwnedSlot, Pool, SharedSlots, Slot, Slots, MAX_NUMBERS};
use std::collections::BTreeSet;
use std::panic::{catch_unwind, AssertUnwindSafe};
use std::sync::atomic::{AtomicU64, Ordering::Relaxed};
use std::sync::{Arc, Barrier};
use std::thread;
use std::time::{Duration, Instant};

#[test]
fn sizes() {
    for size in [1, 2, 63, 64, 65, 4095, MAX_NUMBERS] {
        assert_eq!(Pool::new(size).unwrap().capacity(), size);
    }
    for size in [0, MAX_NUMBERS + 1, usize::MAX] {
        assert_eq!(
            Pool::new(size).unwrap_err(),
            Error::Size {
                asked: size,
                most: MAX_NUMBERS
            }
        );
    }
    assert_eq!(
        Pool::new(0).unwrap_err().to_string(),
        "a size is from 1 to 4096, and not 0"
    );
}

/// None exactly where all are held, and the one number that is free is found.
#[test]
fn none_exactly_where_all_are_held() {
    for size in [1, 2, 3, 64, 200] {
        let pool = Pool::new(size).unwrap();
        let mut held: Vec<Slot> = (0..size).map(|_| pool.acquire().unwrap()).collect();
        assert_eq!(
            held.iter().map(Slot::number).collect::<Vec<_>>(),
            (1..=size).collect::<Vec<_>>()
        );
        assert_eq!(pool.len(), size);
        assert!(pool.acquire().is_none() && pool.acquire_near(size).is_none());
        for place in 0..size {
            let back = held.swap_remove(place).number();
            let again = pool.acquire().unwrap();
            assert_eq!((again.number(), again.index() + 1), (back, back));
            held.push(again);
        }
        drop(held);
        assert!(pool.is_empty());
    }
}

#[test]
fn hints() {
    let pool = Pool::new(8).unwrap();
    let five = pool.acquire_near(5).unwrap();
    assert_eq!(five.number(), 5);
    assert_eq!(pool.acquire_least().unwrap().number(), 1);
    assert_eq!(pool.acquire_near(5).unwrap().number(), 6);
    for hint in [0, 1, 9, usize::MAX] {
        assert_eq!(pool.acquire_near(hint).unwrap().number(), 1, "{hint}");
    }
}

/// Each holder writes its element by plain writes and reads it back, millions of times; nobody else's write is ever met, and
/// the last holder's is.
fn canaries(threads: usize, size: usize, stays: usize) {
    let stays = if cfg!(miri) { 50 } else { stays };
    let pool = Pool::new(size).unwrap();
    let elements = Slots::new(&pool, |_| [0_u64; 4]);
    let gate = Barrier::new(threads);
    let given = AtomicU64::new(0);
    thread::scope(|scope| {
        for id in 1..=threads as u64 {
            let (pool, elements, gate, given) = (&pool, &elements, &gate, &given);
            scope.spawn(move || {
                gate.wait();
                for stay in 0..stays {
                    let slot = match stay % 3 {
                        0 => pool.acquire(),
                        1 => pool.acquire_near(id as usize),
                        _ => pool.acquire_least(),
                    };
                    let Some(mut slot) = slot else { continue };
                    let mine = elements.get(&mut slot);
                    assert!(
                        mine.iter().all(|word| *word == mine[0]),
                        "the last holder's writes are not all here"
                    );
                    *mine = [id; 4];
                    if stay % 256 == 0 {
                        thread::yield_now();
                    }
                    assert_eq!(
                        *elements.get(&mut slot),
                        [id; 4],
                        "somebody else wrote here"
                    );
                    given.fetch_add(1, Relaxed);
                }
            });
        }
    });
    assert!(given.load(Relaxed) > 0 && pool.is_empty());
    assert_eq!(
        (0..size)
            .map(|_| pool.acquire().unwrap())
            .collect::<Vec<_>>()
            .len(),
        size,
        "all came back"
    );
    if 2 * threads <= size {
        assert!(
            given.load(Relaxed) > (threads * stays) as u64 * 9 / 10,
            "twice as many numbers as threads"
        );
    }
}

#[test]
fn eight_threads_on_eight_numbers() {
    canaries(8, 8, 200_000);
}

#[test]
fn eight_threads_on_sixteen_numbers() {
    canaries(8, 16, 200_000);
}

#[test]
fn more_threads_than_numbers() {
    canaries(8, 3, 200_000);
}

#[test]
fn given_back_in_a_panic() {
    let pool = Pool::new(1).unwrap();
    let fell = catch_unwind(AssertUnwindSafe(|| {
        let _slot = pool.acquire().unwrap();
        panic!("with the slot held");
    }));
    assert!(fell.is_err());
    assert_eq!(pool.acquire().unwrap().number(), 1);
}

#[test]
fn dropped_in_another_thread() {
    let pool = Pool::new(1).unwrap();
    for _ in 0..100 {
        let slot = pool.acquire().unwrap();
        thread::scope(|scope| {
            scope.spawn(move || drop(slot));
        });
    }
    assert!(pool.acquire().is_some());
}

#[test]
fn a_forgotten_slot_keeps_its_number() {
    let pool = Pool::new(2).unwrap();
    std::mem::forget(pool.acquire().unwrap());
    assert_eq!(pool.acquire().unwrap().number(), 2);
    assert_eq!(pool.len(), 1);
}

#[test]
fn owned_slots_outlive_the_pool() {
    let pool = Arc::new(Pool::new(2).unwrap());
    let slots: Vec<OwnedSlot> = (0..2).map(|_| pool.acquire_owned().unwrap()).collect();
    drop(pool);
    let numbers: BTreeSet<usize> = slots.iter().map(OwnedSlot::number).collect();
    assert_eq!(numbers, BTreeSet::from([1, 2]));
    assert_eq!(slots[0].pool().len(), 2);
}

/// Slots that keep the pool are got in each way.
#[test]
fn owned_slots_near_and_in_time() {
    let pool = Arc::new(Pool::new(4).unwrap());
    let near = pool.acquire_near_owned(3).unwrap();
    assert_eq!(near.number(), 3);
    let rest: Vec<OwnedSlot> = (0..3)
        .map(|_| pool.acquire_timeout_owned(Duration::ZERO).unwrap())
        .collect();
    assert_eq!(
        pool.acquire_timeout_owned(Duration::from_millis(5)).err(),
        Some(Error::TimedOut)
    );
    let theirs = Arc::clone(&pool);
    let waits = thread::spawn(move || {
        theirs
            .acquire_timeout_owned(Duration::from_secs(60))
            .map(|slot| slot.number())
            .ok()
    });
    thread::sleep(Duration::from_millis(20));
    drop(near);
    assert_eq!(waits.join().unwrap(), Some(3));
    // From the last number on, and then from 1.
    assert_eq!(
        rest.iter().map(OwnedSlot::number).collect::<Vec<_>>(),
        [4, 1, 2]
    );
}

#[test]
fn two_pools_side_by_side() {
    let (one, other) = (Pool::new(2).unwrap(), Pool::new(3).unwrap());
    let all: Vec<Slot> = (0..2)
        .map(|_| one.acquire().unwrap())
        .chain((0..3).map(|_| other.acquire().unwrap()))
        .collect();
    assert!(one.acquire().is_none() && other.acquire().is_none());
    assert_eq!(
        all.iter().map(Slot::number).collect::<Vec<_>>(),
        [1, 2, 1, 2, 3]
    );
}

#[test]
#[should_panic(expected = "a slot of another pool")]
fn an_array_takes_slots_of_its_own_pool() {
    let (one, other) = (Pool::new(1).unwrap(), Pool::new(1).unwrap());
    let elements = Slots::new(&one, |_| 0);
    *elements.get(&mut other.acquire().unwrap()) = 1;
}

#[test]
#[should_panic(expected = "a slot of another pool")]
fn a_shared_array_too() {
    let (one, other) = (Pool::new(1).unwrap(), Pool::new(1).unwrap());
    let elements = SharedSlots::new(&one, |_| 0);
    let _ = elements.get(&other.acquire().unwrap());
}

#[test]
fn waits_for_a_number() {
    let pool = Pool::new(1).unwrap();
    assert_eq!(pool.acquire_timeout(Duration::ZERO).unwrap().number(), 1);
    let slot = pool.acquire().unwrap();
    let begun = Instant::now();
    assert_eq!(
        pool.acquire_timeout(Duration::from_millis(20)).err(),
        Some(Error::TimedOut)
    );
    assert!(begun.elapsed() >= Duration::from_millis(20));
    thread::scope(|scope| {
        for _ in 0..4 {
            scope.spawn(|| assert!(pool.acquire_timeout(Duration::from_secs(60)).is_ok()));
        }
        thread::sleep(Duration::from_millis(20));
        drop(slot);
    });
    assert!(
        begun.elapsed() < Duration::from_secs(50),
        "each release wakes one"
    );
    assert!(pool.acquire_timeout(Duration::MAX).is_ok());
}

/// A thousand waits and releases by turns: no wake-up is lost.
#[test]
fn no_wake_up_is_lost() {
    let pool = Pool::new(1).unwrap();
    let begun = Instant::now();
    thread::scope(|scope| {
        for _ in 0..4 {
            scope.spawn(|| {
                for _ in 0..1000 {
                    drop(
                        pool.acquire_timeout(Duration::from_secs(60))
                            .expect("given in time"),
                    );
                }
            });
        }
    });
    assert!(begun.elapsed() < Duration::from_secs(50));
}

#[test]
fn what_it_says_of_itself() {
    let pool = Pool::new(3).unwrap();
    let slot = pool.acquire().unwrap();
    assert_eq!(format!("{pool:?}"), "Pool { capacity: 3, len: 1 }");
    assert_eq!(format!("{slot:?}"), "Slot { number: 1, .. }");
}

/// Slots have an order, by pool and number, and go into sets.
#[test]
#[allow(clippy::mutable_key_type)] // words are no part of what is compared
fn slots_are_told_apart() {
    let (pool, other) = (Arc::new(Pool::new(2).unwrap()), Pool::new(2).unwrap());
    let (one, two) = (pool.acquire().unwrap(), pool.acquire_owned().unwrap());
    assert!(one != two && one < two);
    assert_ne!(one, other.acquire().unwrap());
    let numbers: std::collections::HashSet<Slot> = [one, other.acquire().unwrap()].into();
    assert_eq!(numbers.len(), 2);
}

/// All numbers at once, again and again.
#[test]
fn many_slots_at_once() {
    let pool = Pool::new(64).unwrap();
    for _ in 0..10 {
        let all: Vec<Slot> = (0..64).map(|_| pool.acquire().unwrap()).collect();
        assert_eq!(
            all.iter().map(Slot::number).collect::<BTreeSet<_>>().len(),
            64
        );
    }
}

#[test]
fn elements_by_index() {
    let pool = Pool::new(3).unwrap();
    let mut elements = Slots::new(&pool, |index| index);
    *elements.get_mut(1).unwrap() = 7;
    assert!(elements.get_mut(3).is_none());
    assert_eq!(elements.into_inner(), [0, 7, 2]);
    let shared = SharedSlots::new(&pool, |index| AtomicU64::new(index as u64));
    assert_eq!(shared[2].load(Relaxed), 2);
    assert!(shared.at(3).is_none());
}

/// Elements that no allocation has room for are refused by an error.
#[test]
#[cfg_attr(miri, ignore = "it wants an allocator that refuses")]
fn elements_too_large() {
    type Huge = [u8; 1 << 46];
    let pool = Pool::new(4096).unwrap();
    let shared = SharedSlots::<Huge>::try_new(&pool, |_| unreachable!("there is no room"));
    assert_eq!(shared.err(), Some(Error::NoMemory));
    let own = Slots::<Huge>::try_new(&pool, |_| unreachable!("there is no room"));
    assert_eq!(own.err(), Some(Error::NoMemory));
}
