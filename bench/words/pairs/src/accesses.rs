//! How a program reaches the words that threads share.

use std::sync::Mutex;
use std::sync::atomic::{
    AtomicU64,
    Ordering::{Relaxed, SeqCst},
};

pub trait Accesses {
    fn load(&self, word: &AtomicU64) -> u64;
    fn store(&self, word: &AtomicU64, value: u64);
}

/// One after another in one order, with no lock.
pub struct Atomic;

impl Accesses for Atomic {
    fn load(&self, word: &AtomicU64) -> u64 {
        word.load(SeqCst)
    }

    fn store(&self, word: &AtomicU64, value: u64) {
        word.store(value, SeqCst);
    }
}

/// As words of one thread, where a mutex is held.
pub struct Held;

impl Accesses for Held {
    fn load(&self, word: &AtomicU64) -> u64 {
        word.load(Relaxed)
    }

    fn store(&self, word: &AtomicU64, value: u64) {
        word.store(value, Relaxed);
    }
}

/// Each with the mutex.
impl Accesses for &Mutex<()> {
    fn load(&self, word: &AtomicU64) -> u64 {
        let _held = self.lock().unwrap();
        Held.load(word)
    }

    fn store(&self, word: &AtomicU64, value: u64) {
        let _held = self.lock().unwrap();
        Held.store(word, value);
    }
}
