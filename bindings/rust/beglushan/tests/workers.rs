//! Workers that keep their numbers.

use beglushan::{Error, SharedSlots, Slots, Workers, MAX_NUMBERS};
use std::collections::BTreeSet;
use std::sync::atomic::{AtomicUsize, Ordering::Relaxed, Ordering::SeqCst};
use std::sync::{Arc, Barrier};
use std::thread;

#[test]
fn sizes() {
    for most in [1, 2, 3, 64, MAX_NUMBERS] {
        let workers = Workers::new(most).unwrap();
        let mut all: Vec<_> = (0..most).map(|_| workers.attach().unwrap()).collect();
        assert_eq!(workers.attach().err(), Some(Error::Full { most }));
        let numbers: Vec<usize> = all
            .iter_mut()
            .map(|worker| worker.stay().number())
            .collect();
        assert_eq!(numbers, (1..=most).collect::<Vec<_>>());
        drop(all);
        assert!(workers.attach().is_ok());
    }
    for asked in [0, MAX_NUMBERS + 1, usize::MAX] {
        let most = MAX_NUMBERS;
        assert_eq!(Workers::new(asked).err(), Some(Error::Size { asked, most }));
    }
}

/// A worker keeps its number between stays, and gives it back when it rests or is dropped.
#[test]
fn kept_and_given_back() {
    let workers = Workers::new(3).unwrap();
    let (mut one, mut two) = (workers.attach().unwrap(), workers.attach().unwrap());
    assert_eq!(
        (one.kept(), one.stay().number(), one.kept()),
        (None, 1, Some(1))
    );
    assert_eq!((two.stay().number(), two.stay().index()), (2, 1));
    one.rest();
    one.rest();
    assert_eq!(one.kept(), None);
    let mut three = workers.attach().unwrap();
    assert_eq!(three.stay().number(), 1);
    assert_eq!(one.stay().number(), 3);
    drop(two);
    let mut four = workers.attach().unwrap();
    assert_eq!(four.stay().number(), 2);
    assert_eq!(format!("{four:?}"), "Worker { kept: Some(2), .. }");
}

/// An idle worker keeps its number, and costs the others that one alone.
#[test]
fn an_idle_worker() {
    let workers = Workers::new(8).unwrap();
    let mut idle = workers.attach().unwrap();
    assert_eq!(idle.stay().number(), 1);
    for _ in 0..100 {
        let mut busy = workers.attach().unwrap();
        assert_eq!(busy.stay().number(), 2);
    }
    idle.rest();
    assert_eq!(workers.attach().unwrap().stay().number(), 1);
}

/// As many workers as numbers, which rest and come again: each stay has a number, at most the most that are attached, and nobody
/// else has it.
#[test]
fn never_none() {
    const STAYS: usize = if cfg!(miri) { 20 } else { 100_000 };
    const THREADS: usize = 4;
    let workers = Workers::new(THREADS).unwrap();
    let elements = Slots::new(&workers, |_| [0_usize; 4]);
    let gate = Barrier::new(THREADS);
    thread::scope(|scope| {
        for id in 1..=THREADS {
            let (workers, elements, gate) = (&workers, &elements, &gate);
            scope.spawn(move || {
                gate.wait();
                let mut worker = workers.attach().unwrap();
                for stay in 0..STAYS {
                    let mut here = worker.stay();
                    assert!((1..=THREADS).contains(&here.number()));
                    *elements.get(&mut here) = [id + stay; 4];
                    assert_eq!(*elements.get(&mut here), [id + stay; 4], "somebody else");
                    if stay % 3 == 0 {
                        worker.rest();
                    }
                }
            });
        }
    });
}

/// A number is at most the most workers that were attached at one moment.
#[test]
fn small_among_few() {
    const ROUNDS: usize = if cfg!(miri) { 10 } else { 20_000 };
    let workers = Arc::new(Workers::new(64).unwrap());
    let attached = AtomicUsize::new(0);
    thread::scope(|scope| {
        for _ in 0..4 {
            scope.spawn(|| {
                for _ in 0..ROUNDS {
                    attached.fetch_add(1, SeqCst);
                    let mut worker = workers.attach_owned().unwrap();
                    assert!(worker.stay().number() <= 4);
                    drop(worker);
                    attached.fetch_sub(1, SeqCst);
                }
            });
        }
    });
    assert_eq!(attached.load(SeqCst), 0);
}

/// A worker goes to another thread with its number.
#[test]
fn goes_to_another_thread() {
    let workers = Arc::new(Workers::new(2).unwrap());
    let flags = SharedSlots::new(&*workers, |_| AtomicUsize::new(0));
    let mut worker = workers.attach_owned().unwrap();
    let number = worker.stay().number();
    let mut worker = thread::spawn(move || {
        assert_eq!(worker.stay().number(), number);
        worker
    })
    .join()
    .unwrap();
    flags.get(&worker.stay()).store(7, Relaxed);
    assert_eq!(flags[number - 1].load(Relaxed), 7);
    let other: BTreeSet<usize> = [
        worker.stay().number(),
        workers.attach().unwrap().stay().number(),
    ]
    .into();
    assert_eq!(other.len(), 2);
}

#[test]
#[should_panic(expected = "a slot of another pool")]
fn an_array_takes_stays_of_its_own_workers() {
    let (one, other) = (Workers::new(1).unwrap(), Workers::new(1).unwrap());
    let elements = Slots::new(&one, |_| 0);
    *elements.get(&mut other.attach().unwrap().stay()) = 1;
}
