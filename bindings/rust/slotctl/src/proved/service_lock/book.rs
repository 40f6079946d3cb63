// Erased by bindings/rust/erase from crates/service_lock/src/book.rt, sha256 811856c0245c6ec186b6331965820de495c9d75993cc3c40bce45265c7b9f914.
//! An append-only history, and the prefixes of it that were seen.

use crate::kit::logbook::{Offer, Plain, Seen, Start, Word};
use crate::kit::marker::Brand;
use crate::proved::service_lock::rule::{Adding, Entries, Nothing};
use std::marker::PhantomData;

/// The book that a type names. Each call of a program picks one.
pub trait Naming: Sized {}

impl Naming for Brand {}

/// An append-only history with no entry, which has no name yet.
pub struct Opened<E> {
    head: Word<E, u64, Entries>,
    seen: Seen<E, u64, Entries>,
}

impl<E> Opened<E> {
    /// Opens an append-only history with no entry. Its clauses are the fields `empty` and `head_is`. Not proved:
    /// anything else.
    pub fn new() -> Opened<E> {
        let (seen, mut first, _second) = Seen::open(Start::alone(), 0, 0);
        Opened {
            head: Word::tracked(0, &mut first),
            seen,
        }
    }

    /// Returns the history under its name, and the prefix of it that has no entry.
    pub fn named<N: Naming>(self) -> (Book<N, E>, Front<N, E>) {
        let Opened { head, seen } = self;
        (
            Book {
                head,
                of: PhantomData,
            },
            Front {
                count: 0,
                seen,
                of: PhantomData,
            },
        )
    }
}

/// An append-only history that threads share: one atomic word, its length. The entries are ghost state.
pub struct Book<N: Naming, E> {
    head: Word<E, u64, Entries>,
    of: PhantomData<N>,
}

/// A prefix of the history that a thread has seen. It stays one. Contracts see its entries.
pub struct Front<N: Naming, E> {
    count: u64,
    seen: Seen<E, u64, Entries>,
    of: PhantomData<N>,
}

impl<N: Naming, E> Front<N, E> {
    /// Returns a copy.
    pub fn again(&self) -> Front<N, E> {
        Front {
            count: self.count,
            seen: self.seen.again(),
            of: PhantomData,
        }
    }

    /// Returns whether another prefix of the same history is no longer than this one. It is then a prefix of this one.
    pub fn begins_with(&self, other: &Front<N, E>) -> bool {
        let mut both = self.seen.again();
        both.learn(&other.seen);
        other.count <= self.count
    }

    /// Appends an entry if this prefix is the whole history, by one compare-exchange, and returns whether it did.
    ///
    /// If not, the history is longer, and this prefix gets longer too.
    pub fn add<X, M: Plain<X, E, u64>>(&mut self, book: &Book<N, E>, entry: &X) -> bool {
        let mut offer: Offer<E, u64, Entries, Nothing> = self.seen.plain::<Nothing, X, M>(entry);
        let mut pen = self.seen.no_pen();
        let count = self.count;
        let found = book.head.compare_exchange::<Adding, Nothing>(
            count,
            count + 1,
            &mut self.seen,
            &mut offer,
            &mut pen,
        );
        self.count = if found == count { count + 1 } else { found };
        found == count
    }
}
