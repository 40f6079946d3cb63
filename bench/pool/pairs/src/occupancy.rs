//! Numbers taken and given back where many are held: the low ones, as calls that take the least leave them.
//!
//! Each work takes `MANY` numbers and then gives them back.

use crate::bitmap::Bitmap;
use crate::free_list::FreeList;
use crate::timed::timed_long;
use beglushan::{Pool, Slot};
use std::array::from_fn;
use std::hint::black_box;

const NUMBERS: [usize; 4] = [8, 64, 1024, 4096];
const PERCENTS: [usize; 4] = [10, 50, 90, 99];
const THREADS: [usize; 2] = [1, 4];

/// How many numbers there are, how many percent of them are held meanwhile, and how many threads take others.
#[derive(Clone, Copy)]
struct Cell {
    numbers: usize,
    percent: usize,
    threads: usize,
}

impl Cell {
    /// How many are held: the percentage rounded, but not all.
    fn held(self) -> usize {
        ((self.numbers * self.percent + 50) / 100).min(self.numbers - 1)
    }

    fn name<const MANY: usize>(self, work: &str) -> String {
        format!("{work}, {} at {} percent, {MANY} each", self.numbers, self.percent)
    }
}

/// Times each cell that has numbers enough.
pub fn all() {
    for numbers in NUMBERS {
        for percent in PERCENTS {
            for threads in THREADS {
                let cell = Cell { numbers, percent, threads };
                works::<1>(cell);
                works::<16>(cell);
            }
        }
    }
}

fn works<const MANY: usize>(cell: Cell) {
    if cell.numbers - cell.held() < cell.threads * MANY {
        return;
    }
    ours::<MANY>(cell);
    bitmap::<MANY>(cell);
    free_list::<MANY>(cell);
}

/// What the attempt takes. Where threads meet, a walk may find each number held though some are free, and the attempt is made again.
#[inline(always)]
fn taken<T>(attempt: impl Fn() -> Option<T>) -> T {
    loop {
        if let Some(it) = attempt() {
            return it;
        }
    }
}

fn ours<const MANY: usize>(cell: Cell) {
    let pool = Pool::new(cell.numbers).expect("a size that there is");
    let held: Vec<Slot> = (0..cell.held()).filter_map(|_| pool.acquire_least()).collect();
    assert!(held.iter().all(|slot| slot.number() <= cell.held()), "the low numbers are held");
    timed_long(&cell.name::<MANY>("acquire_least"), cell.threads, MANY, |_| (), |()| {
        drop(black_box(from_fn::<_, MANY, _>(|_| taken(|| pool.acquire_least()))));
    });
    let first = |thread: usize| cell.held() + 1 + MANY * thread;
    timed_long(&cell.name::<MANY>("acquire_near"), cell.threads, MANY, first, |last| {
        let slots = from_fn::<_, MANY, _>(|_| {
            let slot = taken(|| pool.acquire_near(*last));
            *last = slot.number();
            slot
        });
        drop(black_box(slots));
    });
    timed_long(&cell.name::<MANY>("acquire"), cell.threads, MANY, |_| (), |()| {
        drop(black_box(from_fn::<_, MANY, _>(|_| taken(|| pool.acquire()))));
    });
}

fn bitmap<const MANY: usize>(cell: Cell) {
    let bits = Bitmap::new(cell.numbers);
    (0..cell.held()).for_each(|_| _ = bits.acquire());
    timed_long(&cell.name::<MANY>("bitmap"), cell.threads, MANY, |_| (), |()| {
        for number in black_box(from_fn::<_, MANY, _>(|_| taken(|| bits.acquire()))) {
            bits.release(number);
        }
    });
}

fn free_list<const MANY: usize>(cell: Cell) {
    let list = FreeList::new(cell.numbers);
    (0..cell.held()).for_each(|_| _ = list.acquire());
    timed_long(&cell.name::<MANY>("free list"), cell.threads, MANY, |_| (), |()| {
        for number in black_box(from_fn::<_, MANY, _>(|_| taken(|| list.acquire()))) {
            list.release(number);
        }
    });
}
