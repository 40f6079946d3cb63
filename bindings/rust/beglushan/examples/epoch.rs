//! A small epoch scheme round one value: what is replaced is freed only when no reader can have it. Its list of readers is an array for
//! the workers of the program, so it is as long as the stays that there are at once. A thread is attached by its first read.

use beglushan::{SharedSlots, Stay, Workers};
use std::sync::atomic::{AtomicPtr, AtomicU64, AtomicUsize, Ordering::SeqCst};
use std::sync::{LazyLock, Mutex, PoisonError};
use std::thread;

/// The workers of the program: at most so many stays at once.
static WORKERS: LazyLock<Workers> = LazyLock::new(|| Workers::new(64).expect("memory for 64"));

/// No epoch: the worker does not read.
const OUTSIDE: u64 = 0;

/// A value that many read while it is replaced.
struct Latest<T> {
    now: AtomicPtr<T>,
    epoch: AtomicU64,
    /// The epoch that each reader began in.
    began: SharedSlots<AtomicU64>,
    /// What was replaced, and the last epoch in which it was in reach.
    retired: Mutex<Vec<(u64, *mut T)>>,
    freed: AtomicUsize,
}

// SAFETY: values are lent to many threads, and freed by any.
unsafe impl<T: Send + Sync> Sync for Latest<T> {}

/// A worker that reads, until this is dropped, in a panic too: then it is outside.
struct Reader<'a>(&'a AtomicU64);

impl<'a> Reader<'a> {
    fn begin<T>(latest: &'a Latest<T>, stay: &Stay<'_>) -> Reader<'a> {
        let began = latest.began.get(stay);
        began.store(latest.epoch.load(SeqCst), SeqCst);
        Reader(began)
    }
}

impl Drop for Reader<'_> {
    fn drop(&mut self) {
        self.0.store(OUTSIDE, SeqCst);
    }
}

impl<T> Latest<T> {
    fn new(value: T) -> Latest<T> {
        Latest {
            now: AtomicPtr::new(Box::into_raw(Box::new(value))),
            epoch: AtomicU64::new(OUTSIDE + 1),
            began: SharedSlots::new(&*WORKERS, |_| AtomicU64::new(OUTSIDE)),
            retired: Mutex::default(),
            freed: AtomicUsize::new(0),
        }
    }

    /// Calls with the value of now. A read within a read is a stay of its own.
    fn read<R>(&self, call: impl FnOnce(&T) -> R) -> R {
        WORKERS.with(|stay| {
            let _reader = Reader::begin(self, stay);
            // SAFETY: it is in reach after this reader's epoch was told to all, so it stays until the reader is outside.
            call(unsafe { &*self.now.load(SeqCst) })
        })
    }

    /// Puts a new value in reach, and frees what was out of reach before the oldest reader began.
    fn replace(&self, value: T) {
        let old = self.now.swap(Box::into_raw(Box::new(value)), SeqCst);
        let epoch = self.epoch.fetch_add(1, SeqCst);
        let mut retired = self.retired.lock().unwrap_or_else(PoisonError::into_inner);
        retired.push((epoch, old));
        let began = self.began.iter().map(|epoch| epoch.load(SeqCst));
        let oldest = began.filter(|epoch| *epoch != OUTSIDE).min();
        retired.retain(|&(epoch, value)| {
            let is_read = oldest.is_some_and(|oldest| oldest <= epoch);
            if !is_read {
                // SAFETY: it was swapped out in `epoch` and is in the list once, and each reader that there is began later.
                drop(unsafe { Box::from_raw(value) });
                self.freed.fetch_add(1, SeqCst);
            }
            is_read
        });
    }
}

impl<T> Drop for Latest<T> {
    fn drop(&mut self) {
        let retired = self.retired.get_mut();
        let retired = retired.unwrap_or_else(PoisonError::into_inner);
        let all = retired.drain(..).map(|(_, value)| value);
        // SAFETY: each stands here once, and nobody reads.
        all.chain([*self.now.get_mut()])
            .for_each(|value| drop(unsafe { Box::from_raw(value) }));
    }
}

fn main() {
    const READERS: usize = 4;
    const ROUNDS: u64 = 10_000;
    let latest = Latest::new([0; 8]);
    let is_whole = |value: &[u64; 8]| value.iter().all(|word| *word == value[0]);
    thread::scope(|threads| {
        for _ in 0..READERS {
            threads.spawn(|| {
                for _ in 0..ROUNDS {
                    // The inner read may see a later value.
                    let (before, after) = latest
                        .read(|outer| latest.read(|inner| (is_whole(outer), is_whole(inner))));
                    assert!(before && after, "read after it was freed");
                }
            });
        }
        (1..=ROUNDS).for_each(|round| latest.replace([round; 8]));
    });
    latest.replace([0; 8]);
    println!("{} values replaced under {READERS} readers", ROUNDS + 1);
    println!("freed: {}", latest.freed.load(SeqCst));
}
