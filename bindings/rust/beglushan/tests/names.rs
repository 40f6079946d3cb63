//! Names for good.

use beglushan::{Error, Names, Seat, MAX_SEATS};
use std::collections::BTreeSet;
use std::sync::Barrier;
use std::thread;

/// An identity of 64 bits for each number (Steele and others 2014, the last step of SplitMix).
fn identity(number: usize) -> u64 {
    let mixed = (number as u64 + 1).wrapping_mul(0x9E37_79B9_7F4A_7C15);
    (mixed ^ (mixed >> 30)).wrapping_mul(0xBF58_476D_1CE4_E5B9) | 1
}

#[test]
fn sizes() {
    for most in [1, 2, 15, 16, 63, 64] {
        let names = Names::new(most).unwrap();
        assert_eq!((names.left(), names.capacity()), (most, most));
    }
    let most = MAX_SEATS;
    for asked in [0, 65, usize::MAX] {
        let refused = Some(Error::Size { asked, most });
        assert_eq!(Names::new(asked).err(), refused);
    }
}

#[test]
fn seats() {
    let mut names = Names::new(3).unwrap();
    let first = names.deal(u64::MAX).unwrap();
    assert_eq!((first.identity(), names.left()), (u64::MAX, 2));
    assert_eq!(
        format!("{first:?}"),
        format!("Seat {{ identity: {}, .. }}", u64::MAX)
    );
    for identity in [0, u64::MAX] {
        assert_eq!(
            names.deal(identity).err(),
            Some(Error::Identity { identity })
        );
    }
    assert_eq!((names.deal(1).unwrap().identity(), names.left()), (1, 1));
    assert_eq!(names.deal(1).err(), Some(Error::Identity { identity: 1 }));
    // A seat that has its name, or is dropped, is dealt all the same.
    assert_eq!(first.name(), 1);
    assert_eq!(
        names.deal(u64::MAX).map(drop),
        Err(Error::Identity { identity: u64::MAX })
    );
    assert_eq!(names.deal(2).unwrap().identity(), 2);
    for identity in [0, 1] {
        assert_eq!(
            names.deal(identity).err(),
            Some(Error::Identity { identity })
        );
    }
    assert_eq!(names.deal(3).err(), Some(Error::Full { most: 3 }));
    assert_eq!(format!("{names:?}"), "Names { left: 0 }");
}

#[test]
fn refusals_are_told() {
    let refused = |identity| Error::Identity { identity }.to_string();
    assert_eq!(refused(0), "0 is nobody's identity");
    assert_eq!(refused(7), "identity 7 has a seat already");
}

#[test]
fn one_after_another() {
    for most in (1..=16).chain([33, 64]) {
        let mut names = Names::new(most).unwrap();
        let mut taken = BTreeSet::new();
        for begun in 1..=most {
            let name = names.deal(identity(begun)).unwrap().name();
            assert!((1..2 * begun).contains(&name) && taken.insert(name));
        }
    }
}

/// Names that all threads take at once.
fn at_once(seats: Vec<Seat>) -> BTreeSet<usize> {
    let gate = Barrier::new(seats.len());
    thread::scope(|scope| {
        let begin = |seat: Seat| {
            let gate = &gate;
            scope.spawn(move || {
                gate.wait();
                seat.name()
            })
        };
        let threads: Vec<_> = seats.into_iter().map(begin).collect();
        let told = |thread: thread::ScopedJoinHandle<'_, usize>| thread.join().unwrap();
        threads.into_iter().map(told).collect()
    })
}

/// From two to sixteen threads at once, of up to sixty-four: no two have one name, and none is above `2b - 1`.
#[test]
fn all_at_once() {
    const ROUNDS: usize = if cfg!(miri) { 3 } else { 1000 };
    for round in 0..ROUNDS {
        let begun = 2 + round % 15;
        let mut names = Names::new([16, 17, 64][round % 3]).unwrap();
        let deal = |number| names.deal(identity(round * 16 + number)).unwrap();
        let taken = at_once((0..begun).map(deal).collect());
        assert_eq!(taken.len(), begun, "two have one name");
        assert!(taken.iter().all(|name| (1..2 * begun).contains(name)));
    }
}

/// Seats are dealt while others are named.
#[test]
fn dealt_meanwhile() {
    const ROUNDS: usize = if cfg!(miri) { 3 } else { 100 };
    for round in 0..ROUNDS {
        let mut names = Names::new(16).unwrap();
        let taken = thread::scope(|scope| {
            let begin = |number| {
                let seat = names.deal(identity(round * 16 + number)).unwrap();
                scope.spawn(move || seat.name())
            };
            let threads: Vec<_> = (0..16).map(begin).collect();
            let told = |thread: thread::ScopedJoinHandle<'_, usize>| thread.join().unwrap();
            threads.into_iter().map(told).collect::<BTreeSet<_>>()
        });
        assert_eq!(taken.len(), 16, "two have one name");
        assert!(taken.iter().all(|name| (1..=31).contains(name)));
    }
}

/// A seat outlives the names that dealt it, and one that is never used holds up nobody.
#[test]
fn seats_stay() {
    let mut names = Names::new(3).unwrap();
    let (first, second) = (names.deal(5).unwrap(), names.deal(9).unwrap());
    let unused = names.deal(7).unwrap();
    drop(names);
    assert_eq!(second.name(), 1);
    assert!((2..=3).contains(&first.name()));
    drop(unused);
}
