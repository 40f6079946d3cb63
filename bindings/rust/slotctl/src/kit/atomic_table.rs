//! Atomic words, in the place of the kit's `atomic_table`. Each access is one sequentially consistent step. Seats, badges
//! and rules are what proofs know of the threads: none has bytes. No table here has slots.

use super::alloc::{AllocError, Allocator};
use std::marker::PhantomData;
use std::sync::atomic::{AtomicU64, Ordering::SeqCst};

/// What holds of the words and the views between any two steps.
pub trait TableRule<S, V, K> {}

/// What a step tells.
pub trait Play<S, V> {}

/// How a view is cut in two.
pub trait Split<V> {}

/// The words, which threads share.
pub struct Shared<S, V, K, R> {
    words: Box<[AtomicU64]>,
    of: PhantomData<fn(S, V, K, R)>,
}

/// A table: it owns the words.
pub struct Table<S, V, K, R, A> {
    /// The words, for threads.
    pub shared: Shared<S, V, K, R>,
    _alloc: A,
}

/// A token with which a thread makes its steps.
pub struct Seat<S, V> {
    of: PhantomData<fn(S, V)>,
}

/// A seat that rests.
pub struct Badge<V> {
    of: PhantomData<fn(V)>,
}

impl<S, V> Seat<S, V> {
    fn new() -> Seat<S, V> {
        Seat { of: PhantomData }
    }

    /// `into_badge`: the seat rests.
    pub fn into_badge(self) -> Badge<V> {
        Badge { of: PhantomData }
    }
}

impl<V> Badge<V> {
    /// `blank`: a badge of no table.
    pub fn blank() -> Badge<V> {
        Badge { of: PhantomData }
    }

    /// `into_seat`: the seat that rested.
    pub fn into_seat<S>(self) -> Seat<S, V> {
        Seat::new()
    }
}

impl<S, V, K, R: TableRule<S, V, K>, A: Allocator> Table<S, V, K, R, A> {
    /// `of_words`: a table of these words, and its first seat.
    ///
    /// # Errors
    ///
    /// `AllocError` where an allocation failed.
    pub fn of_words(alloc: A, words: &[u64], _key: &K) -> Result<(Self, Seat<S, V>), AllocError> {
        let mut made = Vec::new();
        made.try_reserve_exact(words.len())?;
        made.extend(words.iter().map(|word| AtomicU64::new(*word)));
        let shared = Shared {
            words: made.into_boxed_slice(),
            of: PhantomData,
        };
        let table = Table {
            shared,
            _alloc: alloc,
        };
        Ok((table, Seat::new()))
    }
}

impl<S, V, K, R: TableRule<S, V, K>> Shared<S, V, K, R> {
    /// `load`: reads a word.
    #[inline]
    pub fn load<M: Play<S, V>>(&self, _seat: &mut Seat<S, V>, place: usize) -> u64 {
        self.words[place].load(SeqCst)
    }

    /// `store`: writes a word.
    #[inline]
    pub fn store<M: Play<S, V>>(&self, _seat: &mut Seat<S, V>, place: usize, word: u64) {
        self.words[place].store(word, SeqCst);
    }

    /// `split_seat`: cuts a seat's view in two.
    pub fn split_seat<M: Split<V>>(&self, _seat: &mut Seat<S, V>) -> Seat<S, V> {
        Seat::new()
    }
}
