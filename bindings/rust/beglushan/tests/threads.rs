//! What may go to other threads, and what a thread leaves when it ends.

#![cfg(feature = "std")]

use beglushan::{
    Error, Iter, Names, OwnedSlot, OwnedWorker, PerThread, PlaceSeat, Places, Pool, Seat,
    SharedIter, SharedSlots, Slot, Slots, Stay, Worker, Workers,
};
use std::cell::{Cell, RefCell};
use std::panic::{catch_unwind, AssertUnwindSafe, RefUnwindSafe, UnwindSafe};
use std::rc::Rc;
use std::sync::atomic::AtomicU64;
use std::sync::{Arc, MutexGuard};
use std::thread;

fn goes<T: Send>() {}
fn is_shared<T: Send + Sync>() {}

#[test]
fn may_go_or_be_shared() {
    is_shared::<Pool>();
    is_shared::<Slots<Cell<u64>>>();
    is_shared::<SharedSlots<AtomicU64>>();
    is_shared::<(PerThread<AtomicU64>, PerThread<Cell<u64>>)>();
    is_shared::<(Error, Workers)>();
    is_shared::<(Slot, OwnedSlot, Worker, OwnedWorker, Stay)>();
    is_shared::<(Names, Seat, Places, PlaceSeat)>();
    is_shared::<(Iter<u64>, SharedIter<u64>)>();
    goes::<(SharedSlots<Cell<u64>>, PerThread<Cell<u64>>)>();
}

/// Has two impls for what is `$bound`, so that `some` is ambiguous for it and this does not compile.
macro_rules! is_not {
    ($bound:ident: $($kind:ty),*) => {{
        trait Either<A> {
            fn some() {}
        }
        impl<T: ?Sized> Either<()> for T {}
        impl<T: ?Sized + $bound> Either<u8> for T {}
        $(<$kind as Either<_>>::some();)*
    }};
}

#[test]
fn may_not() {
    is_not!(Sync: MutexGuard<'static, Cell<u64>>, Iter<'static, Cell<u64>>, SharedIter<'static, Cell<u64>>);
    is_not!(Sync: Slots<Rc<u64>>, Slots<MutexGuard<'static, u64>>, SharedSlots<Cell<u64>>);
    is_not!(Sync: PerThread<Rc<u64>>, PerThread<MutexGuard<'static, u64>>);
    is_not!(Send: Slots<Rc<u64>>, SharedSlots<Rc<u64>>, PerThread<Rc<u64>>);
}

#[test]
fn in_panics() {
    fn may_be_met_after<T: UnwindSafe + RefUnwindSafe>() {}
    may_be_met_after::<Pool>();
    may_be_met_after::<PerThread<AtomicU64>>();
    let values = PerThread::<u64>::new();
    assert!(catch_unwind(|| *values.get_or(|| panic!("no value"))).is_err());
    assert_eq!(values.get_or(|| 7), &7);
    let pool = Pool::new(1).unwrap();
    let elements = Slots::new(&pool, |_| 0);
    let half_way = || {
        *elements.get(&mut pool.acquire().unwrap()) += 1;
        panic!("half way");
    };
    assert!(catch_unwind(AssertUnwindSafe(half_way)).is_err());
    assert_eq!(
        *elements.get(&mut pool.acquire().unwrap()),
        1,
        "as it was left"
    );
}

thread_local!(static KEPT: RefCell<Vec<OwnedSlot>> = const { RefCell::new(Vec::new()) });

/// Slots that a thread keeps until it ends go back then, whether they are dropped before the crate's own thread-locals or after.
#[test]
fn a_thread_that_ends_gives_back_what_it_keeps() {
    let pool = Arc::new(Pool::new(4).unwrap());
    for turn in 0..if cfg!(miri) { 4 } else { 200 } {
        let theirs = Arc::clone(&pool);
        let keep = move || {
            if turn % 2 == 0 {
                drop(theirs.acquire());
            }
            KEPT.with(|kept| {
                kept.borrow_mut()
                    .extend((0..4).map_while(|_| theirs.acquire_owned()))
            });
            assert_eq!(KEPT.with(|kept| kept.borrow().len()), 4);
        };
        thread::spawn(keep).join().unwrap();
        assert!(pool.is_empty());
    }
    let all: Vec<OwnedSlot> = (0..4).filter_map(|_| pool.acquire_owned()).collect();
    assert_eq!(all.len(), 4);
}

/// A thread that only takes and one that only drops: members go one way, and numbers come back.
#[test]
fn taken_here_and_dropped_there() {
    let pool = Arc::new(Pool::new(16).unwrap());
    let (send, receive) = std::sync::mpsc::sync_channel::<OwnedSlot>(8);
    thread::scope(|scope| {
        scope.spawn(move || receive.into_iter().for_each(drop));
        for _ in 0..if cfg!(miri) { 100 } else { 20_000 } {
            // Eight in the channel, one that is dropped, and this one.
            send.send(pool.acquire_near_owned(3).expect("sixteen for ten"))
                .unwrap();
        }
        drop(send);
    });
    assert!(pool.is_empty());
}

/// Elements go with their numbers, wherever the slots go.
#[test]
fn slots_that_change_places() {
    let pool = Pool::new(2).unwrap();
    let mut elements = Slots::new(&pool, |index| index);
    let (mut one, mut other) = (pool.acquire().unwrap(), pool.acquire().unwrap());
    std::mem::swap(&mut one, &mut other);
    let (mine, theirs) = (elements.get(&mut one), elements.get(&mut other));
    assert_eq!((*mine, *theirs), (1, 0));
    std::mem::swap(mine, theirs);
    drop((one, other));
    assert_eq!(elements.len(), 2);
    assert_eq!(
        elements
            .iter_mut()
            .rev()
            .map(|element| *element)
            .collect::<Vec<_>>(),
        [0, 1]
    );
}
