//! An allocator that counts by thread, and so is called by what it calls.

#![cfg(feature = "std")]

use beglushan::{PerThread, Pool};
use std::alloc::{GlobalAlloc, Layout, System};
use std::hint::black_box;
use std::sync::atomic::{AtomicU64, Ordering::Relaxed};
use std::sync::OnceLock;
use std::thread;

const THREADS: usize = 8;

struct Counting;

static COUNTS: PerThread<AtomicU64> = PerThread::new();
static POOL: OnceLock<Pool> = OnceLock::new();

// SAFETY: memory is the system's; what is counted beside it is no memory.
unsafe impl GlobalAlloc for Counting {
    unsafe fn alloc(&self, layout: Layout) -> *mut u8 {
        let _ = COUNTS.try_with(|mine| mine.store(mine.load(Relaxed) + 1, Relaxed));
        // Two slots at once, so that a member goes to the thread's list.
        drop(POOL.get().map(|pool| (pool.acquire(), pool.acquire())));
        // SAFETY: as the caller owes it.
        unsafe { System.alloc(layout) }
    }

    unsafe fn dealloc(&self, place: *mut u8, layout: Layout) {
        // SAFETY: as the caller owes it.
        unsafe { System.dealloc(place, layout) }
    }
}

#[global_allocator]
static ALLOCATOR: Counting = Counting;

#[test]
fn counts_its_threads() {
    const EACH: u64 = 1000;
    POOL.get_or_init(|| Pool::new(64).unwrap());
    let before = COUNTS.sum(|count| count.load(Relaxed));
    for _ in 0..100 {
        thread::scope(|scope| {
            for _ in 0..THREADS {
                scope.spawn(|| (0..EACH).for_each(|value| drop(black_box(Box::new(value)))));
            }
        });
    }
    let counted = COUNTS.sum(|count| count.load(Relaxed)) - before;
    assert!(counted >= 100 * THREADS as u64 * EACH, "{counted}");
    assert!(POOL.get().unwrap().is_empty());
}
