//! What stands without the feature `std` too: pools, workers, arrays, places and names.

use beglushan::{Names, Places, Pool, SharedSlots, Slots, Workers};
use std::sync::atomic::{AtomicUsize, Ordering::Relaxed};
use std::thread;

const THREADS: usize = 4;
const STAYS: usize = if cfg!(miri) { 20 } else { 20_000 };

#[test]
fn pools() {
    let pool = Pool::new(2 * THREADS).unwrap();
    let (elements, counts) = (
        Slots::new(&pool, |_| 0),
        SharedSlots::new(&pool, |_| AtomicUsize::new(0)),
    );
    thread::scope(|scope| {
        for _ in 0..THREADS {
            scope.spawn(|| {
                for _ in 0..STAYS {
                    let Some(mut slot) = pool.acquire() else {
                        continue;
                    };
                    counts.get(&slot).fetch_add(1, Relaxed);
                    *elements.get(&mut slot) += 1;
                }
            });
        }
    });
    let counted: Vec<usize> = counts
        .into_inner()
        .into_iter()
        .map(AtomicUsize::into_inner)
        .collect();
    assert!(pool.is_empty());
    assert_eq!(elements.into_inner(), counted);
}

#[test]
fn workers() {
    let workers = Workers::new(THREADS).unwrap();
    let elements = Slots::new(&workers, |_| 0);
    thread::scope(|scope| {
        for _ in 0..THREADS {
            scope.spawn(|| {
                for stay in 0..STAYS {
                    let mut worker = workers.attach().unwrap();
                    *elements.get(&mut worker.stay()) += 1;
                    if stay % 3 == 0 {
                        worker.rest();
                    }
                    *elements.get(&mut worker.stay()) += 1;
                }
            });
        }
    });
    assert_eq!(
        elements.into_inner().iter().sum::<usize>(),
        2 * THREADS * STAYS
    );
}

#[test]
fn places_and_names() {
    let (mut places, mut names) = (Places::new(2).unwrap(), Names::new(2).unwrap());
    assert_eq!(places.deal().unwrap().enter(), 1);
    assert_eq!(names.deal(7).unwrap().name(), 1);
}
