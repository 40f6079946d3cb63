//! Words that proofs tie to a list that only grows, in the place of the kit's `logbook`. Only `Word` has bytes.

use std::marker::PhantomData;
use std::sync::atomic::{AtomicU64, Ordering::SeqCst};

/// What holds of the words and the list between any two steps. Clauses alone read it.
pub trait Rule<E, A> {}

/// What a client has once its update has run.
pub trait Gain<E, A> {}

/// What an update asks.
pub trait Plain<X, E, A> {}

/// What a step tells.
pub trait Play<E, A> {}

/// What clients keep at the start.
pub struct Start<E, A, P> {
    of: PhantomData<fn(E, A, P)>,
}

/// The prefix of the list that a thread has seen.
pub struct Seen<E, A, P> {
    of: PhantomData<fn(E, A, P)>,
}

/// The right to make a word.
pub struct Pen;

/// An update that runs inside one step.
pub struct Offer<E, A, P, G> {
    of: PhantomData<fn(E, A, P, G)>,
}

impl<E, A, P: Rule<E, A>> Start<E, A, P> {
    /// `alone`: of clients that keep nothing.
    pub fn alone() -> Start<E, A, P> {
        Start { of: PhantomData }
    }
}

impl<E, A, P: Rule<E, A>> Seen<E, A, P> {
    /// `open`: a new list, with pens for two words.
    pub fn open(_start: Start<E, A, P>, _first: u64, _second: u64) -> (Seen<E, A, P>, Pen, Pen) {
        (Seen { of: PhantomData }, Pen, Pen)
    }

    /// `again`: a copy.
    pub fn again(&self) -> Seen<E, A, P> {
        Seen { of: PhantomData }
    }

    /// `learn`: knows what both knew.
    pub fn learn(&mut self, _other: &Seen<E, A, P>) {}

    /// `no_pen`: a pen with no right.
    pub fn no_pen(&self) -> Pen {
        Pen
    }

    /// `plain`: an offer of a client that keeps nothing.
    pub fn plain<G: Gain<E, A>, X, M: Plain<X, E, A>>(&self, _about: &X) -> Offer<E, A, P, G> {
        Offer { of: PhantomData }
    }
}

/// A word that threads change by single atomic steps, sequentially consistent as the kit's.
pub struct Word<E, A, P> {
    bits: AtomicU64,
    of: PhantomData<fn(E, A, P)>,
}

impl<E, A, P: Rule<E, A>> Word<E, A, P> {
    /// `tracked`: the word that the pen is the right to make.
    pub fn tracked(bits: u64, _pen: &mut Pen) -> Word<E, A, P> {
        let bits = AtomicU64::new(bits);
        Word {
            bits,
            of: PhantomData,
        }
    }

    /// `compare_exchange`: the number found, which has become `new` if it was `old`.
    pub fn compare_exchange<M: Play<E, A>, G: Gain<E, A>>(
        &self,
        old: u64,
        new: u64,
        _seen: &mut Seen<E, A, P>,
        _offer: &mut Offer<E, A, P, G>,
        _pen: &mut Pen,
    ) -> u64 {
        self.bits
            .compare_exchange(old, new, SeqCst, SeqCst)
            .unwrap_or_else(|found| found)
    }
}
