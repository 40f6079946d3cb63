// Erased by bindings/rust/erase from crates/words_pool/src/pool_over.rt, sha256 18c7031f9ac8303357bead61f5b8a2845fdd492e2516a31a7906957dee1652ac.
//! The words of numbers under any invariant of a pool, and what each pool does with them in the same way.

use crate::kit::alloc::{AllocError, Allocator};
use crate::kit::atomic_table::{Badge, Seat, Table, TableRule};
use crate::kit::Clone;
use crate::kit::Vec;
use crate::proved::model_steps::refusal::Refusal;
use crate::proved::words_pool::held::Held;
use crate::proved::words_pool::pool_steps::{Free, LookAtNumber};
use crate::proved::words_pool::pool_view::PoolView;

/// The most numbers of a pool.
pub(crate) const MOST_NUMBERS: u64 = 4096;

/// The distance of two numbers in words, so that no two of them share a cache line.
pub(crate) const STRIDE: u64 = 8;

/// The numbers from 1 on, each with a shared atomic word: 1 while a thread holds the number, otherwise 0.
///
/// `WordPool` and `LinePool` are this type with their invariants.
pub struct PoolOver<R: TableRule<u8, PoolView, u64>, A: Allocator> {
    pub(crate) numbers: u64,
    // It has no slots: their type means nothing.
    pub(crate) table: Table<u8, PoolView, u64, R, A>,
}

impl<R: TableRule<u8, PoolView, u64>, A: Allocator + Clone> PoolOver<R, A> {
    /// Makes the words of `numbers` numbers, of which none is held, and the first seat.
    ///
    /// `OutOfRange` if `numbers` is not from 1 to 4096, or `NoMemory` if an allocation failed.
    pub(crate) fn with_seat(
        alloc: A,
        numbers: u64,
    ) -> Result<(PoolOver<R, A>, Seat<u8, PoolView>), Refusal> {
        if numbers < 1 || MOST_NUMBERS < numbers {
            return Err(Refusal::OutOfRange);
        }
        Ok(PoolOver::open(alloc, numbers)?)
    }

    fn open(alloc: A, numbers: u64) -> Result<(PoolOver<R, A>, Seat<u8, PoolView>), AllocError> {
        let words = Vec::from_elem(alloc.clone()?, 0u64, (numbers * STRIDE) as usize)?;
        let (table, seat) = Table::of_words(alloc, words.as_slice(), &numbers)?;
        Ok((PoolOver { numbers, table }, seat))
    }
}

impl<R: TableRule<u8, PoolView, u64>, A: Allocator> PoolOver<R, A> {
    /// Returns the number of numbers: from 1 to 4096.
    pub fn numbers(&self) -> u64 {
        self.numbers
    }

    /// Reads one word after another from the second on, and returns the first place that is free, or the last below `end`,
    /// which it does not read.
    pub(crate) fn look_on(&self, seat: &mut Seat<u8, PoolView>, end: u64) -> u64 {
        for place in 1..end - 1 {
            let found = self
                .table
                .shared
                .load::<LookAtNumber>(seat, (place * STRIDE) as usize);
            if found == 0 {
                return place;
            }
        }
        end - 1
    }

    /// Gives a number of this pool back, by one access, and returns the seat of the call that ended.
    pub(crate) fn give_back(&self, held: Held) -> Badge<PoolView> {
        let Held { place, badge } = held;
        let mut seat = badge.into_seat::<u8>();
        self.table
            .shared
            .store::<Free>(&mut seat, (place * STRIDE) as usize, 0);
        seat.into_badge()
    }
}
