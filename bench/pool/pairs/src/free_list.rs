//! Numbers in a list of the free ones, the last that was given back first: a stack as Treiber's, whose head has a tag, so that one that
//! was taken and given back meanwhile is not mistaken for the same.

use std::sync::atomic::{
    AtomicU32, AtomicU64,
    Ordering::{AcqRel, Acquire, Relaxed, Release},
};

/// A head alone on its cache lines.
#[repr(align(128))]
struct Head(AtomicU64);

pub struct FreeList {
    /// The tag in the high half, and the first free number in the low one; 0 is none.
    head: Head,
    /// The number behind each.
    next: Vec<AtomicU32>,
}

impl FreeList {
    /// So many numbers, all free, from 1 on.
    pub fn new(numbers: usize) -> FreeList {
        let behind = |number| if number == numbers { 0 } else { number as u32 + 1 };
        FreeList { head: Head(AtomicU64::new(1)), next: (0..=numbers).map(|number| AtomicU32::new(behind(number))).collect() }
    }

    #[inline]
    pub fn acquire(&self) -> Option<usize> {
        let mut head = self.head.0.load(Acquire);
        loop {
            let number = head as u32;
            if number == 0 {
                return None;
            }
            let next = self.next[number as usize].load(Relaxed);
            match self.head.0.compare_exchange_weak(head, tagged(head, next), AcqRel, Acquire) {
                Ok(_) => return Some(number as usize),
                Err(now) => head = now,
            }
        }
    }

    #[inline]
    pub fn release(&self, number: usize) {
        let mut head = self.head.0.load(Relaxed);
        loop {
            self.next[number].store(head as u32, Relaxed);
            match self.head.0.compare_exchange_weak(head, tagged(head, number as u32), Release, Relaxed) {
                Ok(_) => return,
                Err(now) => head = now,
            }
        }
    }
}

/// The head that comes after this one, with this number first.
#[inline]
fn tagged(head: u64, first: u32) -> u64 {
    ((head >> 32) + 1) << 32 | u64::from(first)
}
