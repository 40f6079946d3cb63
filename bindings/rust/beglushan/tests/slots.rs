//! What a holder is lent of arrays, and for what arrays are made.

use beglushan::{Pool, SharedSlots, Slots, Workers};
use std::panic::{catch_unwind, AssertUnwindSafe};
use std::sync::atomic::{AtomicU64, Ordering::Relaxed};
use std::sync::Arc;

/// Arrays are made for pools and workers that are lent or counted.
#[test]
fn of_counted_numbers() {
    let (pool, workers) = (
        Arc::new(Pool::new(3).unwrap()),
        Arc::new(Workers::new(2).unwrap()),
    );
    let (own, shared) = (
        Slots::new(&pool, |index| index),
        SharedSlots::new(&workers, |_| 0),
    );
    assert_eq!((own.len(), shared.len()), (3, 2));
    assert_eq!(Slots::new(&&*pool, |_| ()).len(), 3);
    let mut slot = pool.acquire_owned().unwrap();
    *own.get(&mut slot) += 7;
    assert_eq!(*own.get(&mut slot), 7);
}

#[test]
fn an_element_with_its_index() {
    let pool = Pool::new(4).unwrap();
    let elements = Slots::new(&pool, |index| 10 * index);
    let mut slot = pool.acquire_near(4).unwrap();
    let (index, element) = elements.get_indexed(&mut slot);
    assert_eq!((index, *element), (3, 30));
    *element = 31;
    assert_eq!(*elements.get(&mut slot), 31);
}

#[test]
fn elements_of_two_arrays() {
    let pool = Pool::new(2).unwrap();
    let (lists, counts) = (Slots::new(&pool, |_| Vec::new()), Slots::new(&pool, |_| 0));
    let mut slot = pool.acquire().unwrap();
    for turn in 0..3 {
        let (list, count) = lists.get_both(&counts, &mut slot);
        list.push(turn);
        *count += turn;
    }
    drop(slot);
    assert_eq!(lists.into_inner(), [vec![0, 1, 2], vec![]]);
    assert_eq!(counts.into_inner(), [3, 0]);
}

/// One array lends no element twice, whatever its elements are.
#[test]
fn one_array_is_not_two() {
    fn refused<T: Copy>(element: T) {
        let pool = Pool::new(2).unwrap();
        let elements = Slots::new(&pool, |_| element);
        let twice = || {
            let mut slot = pool.acquire().unwrap();
            elements.get_both(&elements, &mut slot);
        };
        let sentence = catch_unwind(AssertUnwindSafe(twice)).unwrap_err();
        assert!(sentence
            .downcast::<&str>()
            .unwrap()
            .starts_with("one array"));
    }
    refused(7_u64);
    refused(());
}

#[test]
#[should_panic(expected = "a slot of another pool")]
fn both_arrays_are_the_slots_own() {
    let (pool, other) = (Pool::new(1).unwrap(), Pool::new(1).unwrap());
    let (mine, theirs) = (Slots::new(&pool, |_| 0), Slots::new(&other, |_| 0));
    mine.get_both(&theirs, &mut pool.acquire().unwrap());
}

/// An iterator of shared elements has a length, goes both ways, and is cloned.
#[test]
fn shared_elements_in_a_row() {
    let pool = Pool::new(5).unwrap();
    let shared = SharedSlots::new(&pool, |index| AtomicU64::new(index as u64));
    let mut all = shared.iter();
    assert_eq!(all.len(), 5);
    assert_eq!(all.next_back().unwrap().load(Relaxed), 4);
    assert_eq!(all.nth(1).unwrap().load(Relaxed), 1);
    let rest = all.clone().map(|word| word.load(Relaxed));
    assert_eq!(rest.collect::<Vec<_>>(), [2, 3]);
    assert_eq!(format!("{all:?}"), "SharedIter { len: 2, .. }");
    assert_eq!((&shared).into_iter().count(), 5);
}

/// A slot that is lent over an `await` goes with its task to another thread.
#[test]
fn a_slot_is_lent_to_a_task() {
    async fn uses(number: &beglushan::Slot<'_>) -> usize {
        std::future::ready(()).await;
        number.number()
    }
    fn goes<T: Send>(task: T) -> T {
        task
    }
    let pool = Pool::new(1).unwrap();
    let slot = pool.acquire().unwrap();
    drop(goes(uses(&slot)));
}
