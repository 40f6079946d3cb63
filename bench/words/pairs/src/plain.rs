//! The same walk over words of Rust's own, a cache line apart.

use std::sync::atomic::{AtomicU64, Ordering::SeqCst};

#[repr(align(64))]
struct Word(AtomicU64);

pub struct PlainWords(Vec<Word>);

impl PlainWords {
    pub fn new(numbers: u64) -> PlainWords {
        PlainWords((0..numbers).map(|_| Word(AtomicU64::new(0))).collect())
    }

    fn is_free(&self, number: u64) -> bool {
        self.0[number as usize - 1].0.load(SeqCst) == 0
    }

    fn take(&self, number: u64) -> bool {
        self.0[number as usize - 1].0.swap(1, SeqCst) == 0
    }

    /// The hint where it is free, else the least that a walk finds free; 0 where it met each held. It looks until a number is
    /// free and swaps from there on, by swaps alone where the hint's swap lost a race.
    #[inline(never)]
    pub fn acquire(&self, hint: u64) -> u64 {
        let last = self.0.len() as u64;
        let first = if 1 < hint && hint <= last && self.is_free(hint) {
            if self.take(hint) {
                return hint;
            }
            1
        } else {
            (1..last).find(|number| self.is_free(*number)).unwrap_or(last)
        };
        (first..=last).find(|number| self.take(*number)).unwrap_or(0)
    }

    #[inline(never)]
    pub fn release(&self, number: u64) {
        self.0[number as usize - 1].0.store(0, SeqCst);
    }
}
