//! The C library and the erased code beside it, called alike: one thread has the same results of both, by drawn schedules, and many
//! threads have the same laws of both.

use crate::{c, erased};
use std::collections::BTreeSet;
use std::num::NonZeroUsize;
use std::sync::atomic::{AtomicUsize, Ordering::SeqCst};
use std::sync::Barrier;
use std::thread;

/// Draws by a multiplication (Steele and others 2014, the last step of SplitMix).
struct Draws(u64);

impl Draws {
    fn below(&mut self, most: usize) -> usize {
        self.0 = self.0.wrapping_add(0x9E37_79B9_7F4A_7C15);
        let mixed = (self.0 ^ (self.0 >> 30)).wrapping_mul(0xBF58_476D_1CE4_E5B9);
        ((mixed >> 32) as usize) % most
    }
}

/// Two members that are called alike.
struct Both {
    c: c::Member,
    erased: erased::Member,
}

impl Both {
    fn call(&mut self, kind: usize, hint: usize) -> Option<NonZeroUsize> {
        match kind {
            0 => same(self.c.acquire(), self.erased.acquire()),
            1 | 2 => same(self.c.acquire_near(hint), self.erased.acquire_near(hint)),
            _ => same(self.c.release(), self.erased.release()),
        }
    }

    fn join(&mut self) -> Both {
        Both {
            c: self.c.join().expect("there is memory"),
            erased: self.erased.join().expect("there is memory"),
        }
    }
}

fn same<T: PartialEq + std::fmt::Debug>(c: T, erased: T) -> T {
    assert_eq!(c, erased);
    c
}

#[test]
fn pools_give_the_same() {
    for round in 0..200 {
        let mut draws = Draws(round);
        let size = 1 + draws.below(12);
        let mut first = Both {
            c: c::Member::first(size).expect("a size"),
            erased: erased::Member::first(size).expect("a size"),
        };
        let mut members: Vec<Both> = (0..size + 2).map(|_| first.join()).collect();
        for _ in 0..2000 {
            let place = draws.below(members.len());
            let (kind, hint) = (draws.below(6), draws.below(size + 3));
            members[place].call(kind, hint);
            if draws.below(50) == 0 {
                // One that ends gives its number back.
                members[place] = first.join();
            }
        }
    }
}

#[test]
fn sizes_are_refused_alike() {
    for size in [0, 1, 2, 64, 65, 4095, 4096, 4097, usize::MAX] {
        let c = c::Member::first(size).is_some();
        assert_eq!(c, erased::Member::first(size).is_some(), "{size}");
        let c = c::LineMember::first(size).is_some();
        assert_eq!(c, erased::LineMember::first(size).is_some(), "{size}");
        let c = c::GridMember::first(size).is_some();
        assert_eq!(c, erased::GridMember::first(size).is_some(), "{size}");
    }
    for most in [0, 1, 2, 16, 63, 64, 65, usize::MAX] {
        same(
            c::NamesDealer::new(most).is_some(),
            erased::NamesDealer::new(most).is_some(),
        );
    }
}

#[test]
fn lines_give_the_same() {
    for round in 0..200 {
        let mut draws = Draws(round);
        let numbers = 1 + draws.below(12);
        let mut c = vec![c::LineMember::first(numbers).expect("a size")];
        let mut erased = vec![erased::LineMember::first(numbers).expect("a size")];
        for _ in 1..numbers {
            let next = (c[0].join(), erased[0].join());
            c.push(next.0.expect("a ticket is left"));
            erased.push(next.1.expect("a ticket is left"));
        }
        assert!(c[0].join().is_none() && erased[0].join().is_none());
        for _ in 0..2000 {
            let place = draws.below(numbers);
            if draws.below(2) == 0 {
                same(c[place].acquire(), erased[place].acquire());
            } else {
                same(c[place].release(), erased[place].release());
            }
        }
    }
}

#[test]
fn grids_give_the_same() {
    for most in [1, 2, 3, 8, 64] {
        let mut c = vec![c::GridMember::first(most).expect("a size")];
        let mut erased = vec![erased::GridMember::first(most).expect("a size")];
        for _ in 1..most {
            let next = (c[0].join(), erased[0].join());
            c.push(next.0.expect("a seat is left"));
            erased.push(next.1.expect("a seat is left"));
        }
        assert!(c[0].join().is_none() && erased[0].join().is_none());
        let mut draws = Draws(most as u64);
        for _ in 0..3 * most {
            let place = draws.below(most);
            same(c[place].enter(), erased[place].enter());
        }
    }
}

/// An identity that has few in common with others.
fn drawn_identity(draws: &mut Draws) -> u64 {
    let low = draws.below(1 << 32) as u64;
    [low << 32, low, low % 7][draws.below(3)]
}

#[test]
fn names_give_the_same() {
    for round in 0..300 {
        let mut draws = Draws(round);
        let most = 1 + draws.below(20);
        let mut dealers = (
            c::NamesDealer::new(most).expect("a size"),
            erased::NamesDealer::new(most).expect("a size"),
        );
        let mut seats = Vec::new();
        for _ in 0..8 * most {
            let identity = drawn_identity(&mut draws);
            let joined = (dealers.0.join(identity), dealers.1.join(identity));
            same(joined.0.is_some(), joined.1.is_some());
            seats.extend(joined.0.zip(joined.1));
            // None is dealt yet where 0 alone was asked for.
            let place = draws.below(seats.len().max(1));
            if let Some((c, erased)) = seats.get_mut(place) {
                same(c.name(), erased.name());
            }
        }
    }
}

/// The laws of a pool, with as many threads as numbers: a number is in range and nobody else's, and a hint that is free is taken.
fn keeps_the_laws<M: Send>(
    first: &mut M,
    join: fn(&mut M) -> Option<M>,
    ask: fn(&mut M, usize) -> Option<NonZeroUsize>,
    release: fn(&mut M) -> Option<NonZeroUsize>,
) {
    const THREADS: usize = 4;
    let holders: Vec<AtomicUsize> = (0..THREADS).map(|_| AtomicUsize::new(0)).collect();
    let members: Vec<M> = (0..THREADS)
        .map(|_| join(first).expect("there is memory"))
        .collect();
    thread::scope(|scope| {
        for (id, mut member) in members.into_iter().enumerate() {
            let holders = &holders;
            scope.spawn(move || {
                for stay in 0..50_000 {
                    let Some(number) = ask(&mut member, stay % (THREADS + 2)) else {
                        continue;
                    };
                    let holder = &holders[number.get() - 1];
                    assert_eq!(holder.swap(id + 1, SeqCst), 0, "two hold {number}");
                    assert!(ask(&mut member, 1).is_none(), "it holds one already");
                    assert_eq!(holder.swap(0, SeqCst), id + 1);
                    release(&mut member);
                }
            });
        }
    });
    assert_eq!(ask(first, THREADS), NonZeroUsize::new(THREADS));
    release(first);
    assert_eq!(ask(first, 0), NonZeroUsize::new(1));
}

#[test]
fn pools_keep_the_same_laws() {
    keeps_the_laws(
        &mut c::Member::first(4).expect("a size"),
        c::Member::join,
        c::Member::acquire_near,
        c::Member::release,
    );
    keeps_the_laws(
        &mut erased::Member::first(4).expect("a size"),
        erased::Member::join,
        erased::Member::acquire_near,
        erased::Member::release,
    );
}

/// The laws of a line, with as many threads as numbers: none is refused, and a number is in range and nobody else's.
fn keeps_the_laws_of_lines<M: Send>(
    mut first: M,
    join: fn(&mut M) -> Option<M>,
    acquire: fn(&mut M) -> Option<NonZeroUsize>,
    release: fn(&mut M) -> Option<NonZeroUsize>,
) {
    const THREADS: usize = 4;
    let holders: Vec<AtomicUsize> = (0..THREADS).map(|_| AtomicUsize::new(0)).collect();
    let mut members: Vec<M> = (1..THREADS)
        .map(|_| join(&mut first).expect("a ticket is left"))
        .collect();
    members.push(first);
    thread::scope(|scope| {
        for (id, mut member) in members.into_iter().enumerate() {
            let holders = &holders;
            scope.spawn(move || {
                for _ in 0..50_000 {
                    let number = acquire(&mut member).expect("a line refuses nobody");
                    let holder = &holders[number.get() - 1];
                    assert_eq!(holder.swap(id + 1, SeqCst), 0, "two hold {number}");
                    assert!(acquire(&mut member).is_none(), "it holds one already");
                    assert_eq!(holder.swap(0, SeqCst), id + 1);
                    release(&mut member);
                }
            });
        }
    });
}

#[test]
fn lines_keep_the_same_laws() {
    keeps_the_laws_of_lines(
        c::LineMember::first(4).expect("a size"),
        c::LineMember::join,
        c::LineMember::acquire,
        c::LineMember::release,
    );
    keeps_the_laws_of_lines(
        erased::LineMember::first(4).expect("a size"),
        erased::LineMember::join,
        erased::LineMember::acquire,
        erased::LineMember::release,
    );
}

/// The laws of a grid: the seats that enter have places of their own, of at most `b(b + 1)/2` if `b` enter.
fn keeps_the_laws_of_grids<M: Send>(
    first: fn(usize) -> Option<M>,
    join: fn(&mut M) -> Option<M>,
    enter: fn(&mut M) -> usize,
) {
    const MOST: usize = 16;
    for round in 0..200 {
        let entering = 1 + round % 4;
        let mut seats = vec![first(MOST).expect("a size")];
        for _ in 1..entering {
            let next = join(&mut seats[0]);
            seats.push(next.expect("a seat is left"));
        }
        let gate = Barrier::new(entering);
        let places: BTreeSet<usize> = thread::scope(|scope| {
            let begin = |mut seat: M| {
                let gate = &gate;
                scope.spawn(move || {
                    gate.wait();
                    let place = enter(&mut seat);
                    assert_eq!(enter(&mut seat), 0, "it has entered");
                    place
                })
            };
            let threads: Vec<_> = seats.into_iter().map(begin).collect();
            let told =
                |thread: thread::ScopedJoinHandle<'_, usize>| thread.join().expect("none panics");
            threads.into_iter().map(told).collect()
        });
        assert_eq!(places.len(), entering, "two have one place");
        assert!((1..=entering * (entering + 1) / 2).contains(places.last().expect("one at least")));
        assert!(!places.contains(&0));
    }
}

#[test]
fn grids_keep_the_same_laws() {
    keeps_the_laws_of_grids(
        c::GridMember::first,
        c::GridMember::join,
        c::GridMember::enter,
    );
    keeps_the_laws_of_grids(
        erased::GridMember::first,
        erased::GridMember::join,
        erased::GridMember::enter,
    );
}

/// The laws of names: the seats that begin have names of their own, of at most `2b - 1` if `b` begin and none is spent.
fn keeps_the_laws_of_names<D, M: Send>(
    new: fn(usize) -> Option<D>,
    join: fn(&mut D, u64) -> Option<M>,
    name: fn(&mut M) -> usize,
) {
    const MOST: usize = 16;
    for round in 0..200 {
        let begun = 1 + round % MOST;
        let mut draws = Draws(round as u64);
        let mut dealer = new(MOST).expect("a size");
        let mut seats = Vec::new();
        while seats.len() < begun {
            seats.extend(join(&mut dealer, drawn_identity(&mut draws)));
        }
        let gate = Barrier::new(begun);
        let names: BTreeSet<usize> = thread::scope(|scope| {
            let begin = |mut seat: M| {
                let gate = &gate;
                scope.spawn(move || {
                    gate.wait();
                    let told = name(&mut seat);
                    assert_eq!(name(&mut seat), told, "it has a name");
                    told
                })
            };
            let threads: Vec<_> = seats.into_iter().map(begin).collect();
            let told =
                |thread: thread::ScopedJoinHandle<'_, usize>| thread.join().expect("none panics");
            threads.into_iter().map(told).collect()
        });
        assert_eq!(names.len(), begun, "two have one name");
        assert!(names.iter().all(|name| (1..2 * begun).contains(name)));
    }
}

#[test]
fn names_keep_the_same_laws() {
    keeps_the_laws_of_names(
        c::NamesDealer::new,
        c::NamesDealer::join,
        c::NamesMember::name,
    );
    keeps_the_laws_of_names(
        erased::NamesDealer::new,
        erased::NamesDealer::join,
        erased::NamesMember::name,
    );
}
