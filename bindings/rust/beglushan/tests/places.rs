//! Places for good.

use beglushan::{Error, Places, MAX_PLACE_SEATS};
use std::collections::BTreeSet;
use std::sync::Barrier;
use std::thread;

#[test]
fn sizes() {
    for most in [1, 2, 63, 64] {
        let places = Places::new(most).unwrap();
        assert_eq!((places.left(), places.capacity()), (most, most));
    }
    for asked in [0, 65, usize::MAX] {
        assert_eq!(
            Places::new(asked).err(),
            Some(Error::Size {
                asked,
                most: MAX_PLACE_SEATS
            })
        );
    }
}

#[test]
fn one_after_another() {
    let mut places = Places::new(64).unwrap();
    assert_eq!(places.deal().unwrap().enter(), 1);
    let mut taken = BTreeSet::from([1]);
    for entered in 2..=64 {
        let place = places.deal().unwrap().enter();
        assert!(place <= entered * (entered + 1) / 2 && taken.insert(place));
    }
    assert!(places.deal().is_none());
    assert_eq!(format!("{places:?}"), "Places { left: 0 }");
}

/// Sixty-four threads at once, a hundred times: no two have one place, and few have small ones.
#[test]
fn all_at_once() {
    for round in 0..100 {
        let most = 1 + round % 64;
        let mut places = Places::new(64).unwrap();
        let gate = Barrier::new(most);
        let taken = thread::scope(|scope| {
            let seats: Vec<_> = (0..most).map(|_| places.deal().unwrap()).collect();
            let gate = &gate;
            let enter = move |seat: beglushan::PlaceSeat| {
                gate.wait();
                seat.enter()
            };
            let threads: Vec<_> = seats
                .into_iter()
                .map(|seat| scope.spawn(move || enter(seat)))
                .collect();
            threads
                .into_iter()
                .map(|thread| thread.join().unwrap())
                .collect::<BTreeSet<usize>>()
        });
        assert_eq!(taken.len(), most);
        assert!(taken
            .iter()
            .all(|place| (1..=most * (most + 1) / 2).contains(place)));
    }
}
