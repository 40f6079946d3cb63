//! The same walk over plain words, unproved, and what many would write instead: a bit for each number.

use std::sync::atomic::{AtomicU64, Ordering::SeqCst};

#[repr(align(64))]
#[derive(Default)]
struct Word(AtomicU64);

/// Words that are 1 while their number is held.
pub struct PlainWords(Vec<Word>);

impl PlainWords {
    pub fn new(numbers: usize) -> PlainWords {
        PlainWords((0..numbers).map(|_| Word::default()).collect())
    }

    fn is_free(&self, number: usize) -> bool {
        self.0[number - 1].0.load(SeqCst) == 0
    }

    fn take(&self, number: usize) -> bool {
        self.0[number - 1].0.swap(1, SeqCst) == 0
    }

    /// The number of the hint, where it is free, else the least that a walk from 1 finds free. It looks until a number is free
    /// and swaps from there on, by swaps alone where the hint's swap lost a race.
    pub fn acquire_near(&self, hint: usize) -> Option<usize> {
        let last = self.0.len();
        let first = if self.is_free(hint) {
            if self.take(hint) {
                return Some(hint);
            }
            1
        } else {
            (1..last).find(|number| self.is_free(*number)).unwrap_or(last)
        };
        (first..=last).find(|number| self.take(*number))
    }

    pub fn release(&self, number: usize) {
        self.0[number - 1].0.store(0, SeqCst);
    }
}

/// At most 64 numbers, each a bit of one word, which is set while the number is held.
pub struct PlainBits(AtomicU64);

impl PlainBits {
    pub fn new(numbers: usize) -> PlainBits {
        PlainBits(AtomicU64::new(u64::MAX.checked_shl(numbers as u32).unwrap_or(0)))
    }

    /// The number of the hint, where it is free, else the least that is; none where all are held at one moment. It tries again
    /// where another thread changed the word meanwhile.
    pub fn acquire_near(&self, hint: usize) -> Option<usize> {
        let mut held = self.0.load(SeqCst);
        loop {
            let hinted = 1 << (hint - 1);
            let bit = if held & hinted == 0 { hinted } else { !held & held.wrapping_add(1) };
            if bit == 0 {
                return None;
            }
            match self.0.compare_exchange_weak(held, held | bit, SeqCst, SeqCst) {
                Ok(_) => return Some(bit.trailing_zeros() as usize + 1),
                Err(now) => held = now,
            }
        }
    }

    pub fn release(&self, number: usize) {
        self.0.fetch_and(!(1 << (number - 1)), SeqCst);
    }
}
