//! Threads that pass elements and values to one another by the crate alone, for ThreadSanitizer.
//!
//!     beglushan-tsan pool      elements of a pool's holders
//!     beglushan-tsan workers   elements of workers
//!     beglushan-tsan values    values of threads one after another, and values that are read while they are written
//!     beglushan-tsan race      two threads write to one place with nothing between them: the tool has to report it
//!
//! The standard library is not built for the tool. So the tool does not see what a lock that is waited for puts in order, nor what
//! `thread::scope` does. Here no lock is waited for, and threads are joined by their handles. What else threads tell one another is told by
//! relaxed atomics, which put nothing in order.

use beglushan::{PerThread, Pool, Slots, Workers};
use std::cell::{Cell, UnsafeCell};
use std::sync::atomic::{AtomicU64, AtomicUsize, Ordering::Relaxed};
use std::sync::Arc;
use std::thread::{self, JoinHandle};

const THREADS: usize = 4;
const STAYS: usize = 50_000;

fn main() {
    match std::env::args().nth(1).as_deref() {
        Some("pool") => pool(),
        Some("workers") => workers(),
        Some("values") => {
            one_after_another();
            read_while_written();
        }
        Some("race") => race(),
        _ => panic!("beglushan-tsan pool | workers | values | race"),
    }
}

fn join_all(threads: Vec<JoinHandle<()>>) {
    for thread in threads {
        thread.join().expect("nothing panics");
    }
}

/// Waits until so many were counted, and orders nothing by it.
fn await_count(count: &AtomicUsize, most: usize) {
    while count.load(Relaxed) < most {
        thread::yield_now();
    }
}

/// Writes to an element and reads it back, by plain accesses.
fn use_element(element: &mut [usize; 4], told: usize) {
    assert!(element.iter().all(|word| *word == element[0]));
    *element = [told; 4];
}

/// Four threads on three numbers, by each call that takes one.
fn pool() {
    let pool = Arc::new(Pool::new(THREADS - 1).expect("a size"));
    let elements = Arc::new(Slots::new(&*pool, |_| [0; 4]));
    let stays = |id: usize, pool: &Pool, elements: &Slots<[usize; 4]>| {
        for stay in 0..STAYS {
            let slot = match stay % 3 {
                0 => pool.acquire(),
                1 => pool.acquire_near(id),
                _ => pool.acquire_least(),
            };
            if let Some(mut slot) = slot {
                use_element(elements.get(&mut slot), id + stay);
            }
        }
    };
    let begun = Arc::new(AtomicUsize::new(0));
    let begin = |id| {
        let (pool, elements) = (Arc::clone(&pool), Arc::clone(&elements));
        let begun = Arc::clone(&begun);
        thread::spawn(move || {
            // No thread makes its member while another does.
            await_count(&begun, id - 1);
            drop(pool.acquire());
            begun.fetch_add(1, Relaxed);
            await_count(&begun, THREADS);
            stays(id, &pool, &elements);
        })
    };
    join_all((1..=THREADS).map(begin).collect());
    assert!(pool.is_empty());
}

/// As many workers as numbers, which rest and come again.
fn workers() {
    let workers = Arc::new(Workers::new(THREADS).expect("a size"));
    let elements = Arc::new(Slots::new(&*workers, |_| [0; 4]));
    let begin = |id| {
        let mut worker = workers.attach_owned().expect("as many as threads");
        let elements = Arc::clone(&elements);
        thread::spawn(move || {
            for stay in 0..STAYS {
                use_element(elements.get(&mut worker.stay()), id + stay);
                if stay % 3 == 0 {
                    worker.rest();
                }
            }
            worker
        })
    };
    let threads: Vec<_> = (1..=THREADS).map(begin).collect();
    for thread in threads {
        drop(thread.join().expect("nothing panics"));
    }
}

/// Counts that the thread has ended, after it has given its number back: what a thread makes first is dropped last.
struct Ended(Cell<Option<Arc<AtomicUsize>>>);

impl Drop for Ended {
    fn drop(&mut self) {
        if let Some(count) = self.0.take() {
            count.fetch_add(1, Relaxed);
        }
    }
}

thread_local!(static ENDED: Ended = const { Ended(Cell::new(None)) });

/// Each thread goes on with the value that the thread before it left. Nothing but the crate puts the two in order.
fn one_after_another() {
    let values = Arc::new(PerThread::<Cell<u64>>::new());
    let ended = Arc::new(AtomicUsize::new(0));
    let mut threads = Vec::new();
    for before in 0..200 {
        await_count(&ended, before);
        let (values, ended) = (Arc::clone(&values), Arc::clone(&ended));
        threads.push(thread::spawn(move || {
            ENDED.with(|mine| mine.0.set(Some(ended)));
            values.with(|mine| mine.set(mine.get() + 1));
        }));
    }
    join_all(threads);
    let values = Arc::into_inner(values).expect("nobody has it");
    let all: Vec<u64> = values.into_iter().map(Cell::into_inner).collect();
    assert_eq!(all, [200], "the threads had one value, one after another");
}

/// Values that their threads write to while others begin, and while another reads them all.
fn read_while_written() {
    let values = Arc::new(PerThread::<(u64, AtomicU64)>::new());
    let begun = Arc::new(AtomicUsize::new(0));
    let ended = Arc::new(AtomicUsize::new(0));
    let mut threads = Vec::new();
    for id in 0..THREADS {
        let (values, count) = (Arc::clone(&values), Arc::clone(&begun));
        let ended = Arc::clone(&ended);
        threads.push(thread::spawn(move || {
            ENDED.with(|mine| mine.0.set(Some(Arc::clone(&ended))));
            values.get_or(|| (7, AtomicU64::new(0)));
            count.fetch_add(1, Relaxed);
            for told in 0..STAYS as u64 {
                values.with_or(
                    || unreachable!("it is made"),
                    |mine| mine.1.store(told, Relaxed),
                );
            }
            // No thread gives its number back while another takes one or gives one back.
            await_count(&count, THREADS);
            await_count(&ended, id);
        }));
        // No thread takes its number while another does.
        await_count(&begun, id + 1);
    }
    for _ in 0..100 {
        assert!(values
            .iter()
            .all(|(made, told)| *made == 7 && told.load(Relaxed) < STAYS as u64));
    }
    join_all(threads);
}

/// A word that any thread may write to.
struct Unguarded(UnsafeCell<usize>);

// SAFETY: it is not: that is what the tool has to find.
unsafe impl Sync for Unguarded {}

fn race() {
    let word = Arc::new(Unguarded(UnsafeCell::new(0)));
    let begin = |told| {
        let word = Arc::clone(&word);
        // SAFETY: it is a race, which this function is for.
        thread::spawn(move || unsafe { word.0.get().write_volatile(told) })
    };
    join_all((1..=2).map(begin).collect());
}
