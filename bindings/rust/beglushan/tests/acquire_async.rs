//! Tasks that wait for numbers, polled by hand and by threads.

use beglushan::Pool;
use std::future::Future;
use std::pin::{pin, Pin};
use std::sync::atomic::{AtomicUsize, Ordering::SeqCst};
use std::sync::Arc;
use std::task::{Context, Poll, Wake, Waker};
use std::thread::{self, Thread};
use std::time::Duration;

/// A waker that counts, and wakes a thread.
struct Woken(AtomicUsize, Thread);

impl Wake for Woken {
    fn wake(self: Arc<Self>) {
        self.0.fetch_add(1, SeqCst);
        self.1.unpark();
    }
}

fn woken() -> (Arc<Woken>, Waker) {
    let woken = Arc::new(Woken(AtomicUsize::new(0), thread::current()));
    (Arc::clone(&woken), Waker::from(woken))
}

fn poll<F: Future>(task: Pin<&mut F>, waker: &Waker) -> Option<F::Output> {
    match task.poll(&mut Context::from_waker(waker)) {
        Poll::Ready(told) => Some(told),
        Poll::Pending => None,
    }
}

/// Runs a task in this thread, which sleeps until the task is woken.
fn block_on<F: Future>(task: F) -> F::Output {
    let mut task = pin!(task);
    let (_, waker) = woken();
    loop {
        if let Some(told) = poll(task.as_mut(), &waker) {
            return told;
        }
        thread::park_timeout(Duration::from_secs(50));
    }
}

#[test]
fn a_free_number_is_there_at_once() {
    let pool = Arc::new(Pool::new(2).unwrap());
    let (one, other) = (
        block_on(pool.acquire_async()),
        block_on(pool.acquire_async_owned()),
    );
    assert_eq!((one.number(), other.number()), (1, 2));
    drop((one, other));
    assert!(pool.is_empty());
}

/// The tasks are woken in the order in which they came, one for each slot that is dropped.
#[test]
fn in_order() {
    let pool = Pool::new(1).unwrap();
    let slot = pool.acquire().unwrap();
    let (mut first, mut second) = (pin!(pool.acquire_async()), pin!(pool.acquire_async()));
    let ((ones, one), (others, other)) = (woken(), woken());
    assert!(poll(first.as_mut(), &one).is_none());
    assert!(poll(second.as_mut(), &other).is_none());
    assert!(poll(first.as_mut(), &one).is_none(), "it keeps its place");
    assert_eq!(format!("{first:?}"), "Acquire { is_queued: true, .. }");
    drop(slot);
    assert_eq!((ones.0.load(SeqCst), others.0.load(SeqCst)), (1, 0));
    let slot = poll(first.as_mut(), &one).expect("it was woken");
    // The second may have been woken in vain. A third does not come before it.
    let (mut third, (thirds, last)) = (pin!(pool.acquire_async()), woken());
    assert!(poll(third.as_mut(), &last).is_none());
    assert!(poll(second.as_mut(), &other).is_none());
    let before = others.0.load(SeqCst);
    drop(slot);
    assert_eq!(others.0.load(SeqCst), before + 1);
    assert_eq!((ones.0.load(SeqCst), thirds.0.load(SeqCst)), (1, 0));
    assert!(poll(second.as_mut(), &other).is_some());
    assert!(pool.is_empty());
}

/// A task that is dropped after it was woken wakes the next.
#[test]
fn a_task_that_is_dropped_passes_it_on() {
    let pool = Pool::new(1).unwrap();
    let slot = pool.acquire().unwrap();
    let (mut first, mut second) = (Box::pin(pool.acquire_async()), pin!(pool.acquire_async()));
    let ((_, one), (others, other)) = (woken(), woken());
    assert!(poll(first.as_mut(), &one).is_none());
    assert!(poll(second.as_mut(), &other).is_none());
    drop(slot);
    assert_eq!(others.0.load(SeqCst), 0);
    drop(first);
    assert_eq!(others.0.load(SeqCst), 1);
    assert!(poll(second.as_mut(), &other).is_some());
}

/// Tasks and threads wait for one number by turns: no wake-up is lost, though some tasks give up.
#[test]
fn no_wake_up_is_lost() {
    const TURNS: usize = if cfg!(miri) { 10 } else { 2000 };
    let pool = Pool::new(1).unwrap();
    thread::scope(|scope| {
        for id in 0..6 {
            let pool = &pool;
            scope.spawn(move || {
                for turn in 0..TURNS {
                    if id == 0 {
                        let slot = pool.acquire_timeout(Duration::from_secs(50));
                        drop(slot.expect("given in time"));
                    } else {
                        if turn % 3 == 0 {
                            let mut given_up = pin!(pool.acquire_async());
                            drop(poll(given_up.as_mut(), &woken().1));
                        }
                        drop(block_on(pool.acquire_async()));
                    }
                }
            });
        }
    });
    assert!(pool.is_empty());
}
