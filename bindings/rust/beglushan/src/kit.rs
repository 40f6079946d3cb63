//! What the proved code takes from the kit that proved it, in plain Rust: words that threads share, vectors, allocators.
//!
//! The code in `proved` was written over the kit's crates `atomic_table` and `std_alloc`. Each function here stands for the one of
//! the same name there, and names the clause of its contract that it has to keep. The contracts speak of *tables*, *seats* and
//! *badges*: what a thread knows of the words, which the proofs follow and which takes no bytes when the program runs. So seats and
//! badges are empty here. What is left of a table is its words. Each access is one atomic access, sequentially consistent.

pub(crate) use self::alloc::Clone;
pub(crate) use self::vec::Vec;

/// Stands for `std::alloc` of the kit: memory that may be refused.
pub(crate) mod alloc {
    /// An allocation failed.
    #[derive(Debug)]
    pub(crate) struct AllocError;

    /// Where memory comes from.
    pub(crate) trait Allocator {}

    /// The global allocator of the program.
    #[derive(Debug)]
    pub(crate) struct Global;

    impl Allocator for Global {}

    /// A clone that may fail.
    pub(crate) trait Clone: Sized {
        /// `same`: the same allocator.
        fn clone(&self) -> Result<Self, AllocError>;
    }

    impl Clone for Global {
        fn clone(&self) -> Result<Global, AllocError> {
            Ok(Global)
        }
    }
}

/// Stands for `Vec` of the kit, which asks its allocator and says if memory was refused.
mod vec {
    use super::alloc::{AllocError, Allocator};
    use std_alloc::vec;

    /// Elements in a row.
    pub(crate) struct Vec<T, A: Allocator> {
        items: vec::Vec<T>,
        _alloc: A,
    }

    impl<T, A: Allocator> Vec<T, A> {
        /// `items`: none. `capacity`: room for so many.
        pub(crate) fn with_capacity(alloc: A, count: usize) -> Result<Self, AllocError> {
            let mut items = vec::Vec::new();
            let room = items.try_reserve_exact(count);
            room.map_err(|_| AllocError)?;
            Ok(Vec {
                items,
                _alloc: alloc,
            })
        }

        /// `len`: so many. `items_if_clones_equal`: each is this one.
        pub(crate) fn from_elem(alloc: A, item: T, count: usize) -> Result<Self, AllocError>
        where
            T: Copy,
        {
            let mut made = Vec::with_capacity(alloc, count)?;
            made.items.resize(count, item);
            Ok(made)
        }

        /// `value`: the items.
        pub(crate) fn as_slice(&self) -> &[T] {
            &self.items
        }
    }
}

/// Stands for `atomic_table` of the kit: words that threads share.
#[allow(clippy::unnecessary_cast)] // words are of 64 bits only where there are such
pub(crate) mod atomic_table {
    use super::alloc::{AllocError, Allocator};
    use core::marker::PhantomData;
    #[cfg(not(loom))]
    use core::sync::atomic::Ordering::SeqCst;
    #[cfg(loom)]
    use loom::sync::atomic::Ordering::SeqCst;
    use std_alloc::{boxed::Box, vec::Vec};

    #[cfg(all(not(loom), target_has_atomic = "64"))]
    type Word = core::sync::atomic::AtomicU64;
    #[cfg(loom)]
    type Word = loom::sync::atomic::AtomicU64;
    #[cfg(any(loom, target_has_atomic = "64"))]
    type Bits = u64;

    // The words of pools, lines and grids are at most 64. `Names` has greater ones, and is not there on these targets.
    #[cfg(all(not(loom), not(target_has_atomic = "64")))]
    type Word = core::sync::atomic::AtomicUsize;
    #[cfg(all(not(loom), not(target_has_atomic = "64")))]
    type Bits = usize;

    /// What holds of a table at each moment. Only proofs use it.
    pub(crate) trait TableRule<S, V, K> {}

    /// What a step does to what its seat knows. Only proofs use it, as the next one.
    pub(crate) trait Play<S, V> {}

    /// How what a seat knows is parted.
    pub(crate) trait Split<V> {}

    /// What a thread knows of a table, and steps with.
    pub(crate) struct Seat<S, V>(PhantomData<fn(S, V)>);

    impl<S, V> Seat<S, V> {
        /// The same, to be kept.
        pub(crate) fn into_badge(self) -> Badge<V> {
            Badge(PhantomData)
        }
    }

    /// What a thread knows of a table, while it makes no step.
    pub(crate) struct Badge<V>(PhantomData<fn(V)>);

    impl<V> Badge<V> {
        /// `views`: none. It stands in for a badge that was taken out of its place.
        pub(crate) fn blank() -> Badge<V> {
            Badge(PhantomData)
        }

        /// The same, to step with.
        pub(crate) fn into_seat<S>(self) -> Seat<S, V> {
            Seat(PhantomData)
        }
    }

    /// Eight words, which share a cache line with no others.
    #[repr(align(64))]
    struct Line([Word; 8]);

    /// The words of a table, which threads share.
    pub(crate) struct Shared<S, V, K, R> {
        lines: Box<[Line]>,
        about: PhantomData<fn(S, V, K, R)>,
    }

    impl<S, V, K, R> Shared<S, V, K, R> {
        #[inline(always)]
        fn word(&self, at: usize) -> &Word {
            &self.lines[at / 8].0[at % 8]
        }

        /// The word, by one load.
        #[inline(always)]
        pub(crate) fn load<M: Play<S, V>>(&self, _: &mut Seat<S, V>, at: usize) -> u64 {
            self.word(at).load(SeqCst) as u64
        }

        /// The same, with a new seat.
        #[inline(always)]
        pub(crate) fn load_new_seat<M: Play<S, V>>(&self, at: usize) -> (u64, Seat<S, V>) {
            (self.word(at).load(SeqCst) as u64, Seat(PhantomData))
        }

        /// The word becomes `new`, by one store.
        #[inline(always)]
        pub(crate) fn store<M: Play<S, V>>(&self, _: &mut Seat<S, V>, at: usize, new: u64) {
            self.word(at).store(new as Bits, SeqCst);
        }

        /// The word as it was, which becomes `new`, by one swap.
        #[inline(always)]
        pub(crate) fn swap<M: Play<S, V>>(&self, _: &mut Seat<S, V>, at: usize, new: u64) -> u64 {
            self.word(at).swap(new as Bits, SeqCst) as u64
        }

        /// The same, with a new seat.
        #[inline(always)]
        pub(crate) fn swap_new_seat<M: Play<S, V>>(
            &self,
            at: usize,
            new: u64,
        ) -> (u64, Seat<S, V>) {
            (
                self.word(at).swap(new as Bits, SeqCst) as u64,
                Seat(PhantomData),
            )
        }

        /// The word, by one load that no proof hears of.
        #[inline(always)]
        pub(crate) fn peek(&self, at: usize) -> u64 {
            self.word(at).load(SeqCst) as u64
        }

        /// A seat that knows a part of what this one knew. The kit loads word 0 here and ignores it.
        #[inline(always)]
        pub(crate) fn split_seat<M: Split<V>>(&self, _: &mut Seat<S, V>) -> Seat<S, V> {
            Seat(PhantomData)
        }
    }

    /// A table: its words, and where their memory is from.
    pub(crate) struct Table<S, V, K, R, A: Allocator> {
        pub(crate) shared: Shared<S, V, K, R>,
        _alloc: A,
    }

    impl<S, V, K, R, A: Allocator> Table<S, V, K, R, A> {
        /// A table of these words, and its first seat. `AllocError` only if an allocation failed.
        pub(crate) fn of_words(
            alloc: A,
            words: &[u64],
            _: &K,
        ) -> Result<(Self, Seat<S, V>), AllocError> {
            let mut lines = Vec::new();
            let room = lines.try_reserve_exact(words.len().div_ceil(8));
            room.map_err(|_| AllocError)?;
            for eight in words.chunks(8) {
                let at = |place| Word::new(eight.get(place).copied().unwrap_or(0) as Bits);
                lines.push(Line(core::array::from_fn(at)));
            }
            let shared = Shared {
                lines: lines.into_boxed_slice(),
                about: PhantomData,
            };
            let table = Table {
                shared,
                _alloc: alloc,
            };
            Ok((table, Seat(PhantomData)))
        }
    }
}
