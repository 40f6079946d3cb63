//! Numbers as the bits of atomic words, side by side: a bit is set while its number is held.

use std::sync::atomic::{
    AtomicU64,
    Ordering::{Acquire, Relaxed, Release},
};

const BITS: usize = 64;

pub struct Bitmap(Vec<AtomicU64>);

impl Bitmap {
    /// So many numbers, of which none is held. The bits behind the last one are set for good.
    pub fn new(numbers: usize) -> Bitmap {
        let words: Vec<AtomicU64> = (0..numbers.div_ceil(BITS)).map(|_| AtomicU64::new(0)).collect();
        if numbers % BITS != 0 {
            words[numbers / BITS].store(u64::MAX << (numbers % BITS), Relaxed);
        }
        Bitmap(words)
    }

    /// The least number that a walk from 1 finds free, 64 at a look; none where it finds all held.
    #[inline]
    pub fn acquire(&self) -> Option<usize> {
        self.0.iter().enumerate().find_map(|(at, word)| Some(BITS * at + acquire_of(word)? + 1))
    }

    #[inline]
    pub fn release(&self, number: usize) {
        let at = number - 1;
        self.0[at / BITS].fetch_and(!(1 << (at % BITS)), Release);
    }
}

/// Sets the least bit of a word that is not set. It tries again where another thread changed the word meanwhile.
#[inline]
fn acquire_of(word: &AtomicU64) -> Option<usize> {
    let mut held = word.load(Relaxed);
    while held != u64::MAX {
        let bit = held.trailing_ones() as usize;
        match word.compare_exchange_weak(held, held | 1 << bit, Acquire, Relaxed) {
            Ok(_) => return Some(bit),
            Err(now) => held = now,
        }
    }
    None
}
