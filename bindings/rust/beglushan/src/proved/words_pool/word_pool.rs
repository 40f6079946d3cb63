// Erased by bindings/rust/erase from crates/words_pool/src/word_pool.rt, sha256 df653315d0d3334d8f28a1dd25965ff1e92e0a99ef6e914cbcd33fdc1a3339c9.
//! A pool whose numbers are sought from 1 upward.

use crate::kit::alloc::Allocator;
use crate::kit::atomic_table::{Seat, Shared};
use crate::kit::Clone;
use crate::proved::model_steps::refusal::Refusal;
use crate::proved::words_pool::held::{AllHeld, Held, Released};
use crate::proved::words_pool::pool_over::{PoolOver, STRIDE};
use crate::proved::words_pool::pool_steps::{Come, ComeBySwap, Pooling, Take};
use crate::proved::words_pool::pool_view::PoolView;

/// A pool: the numbers from 1 on, each with a shared atomic word, for any number of threads.
pub type WordPool<A> = PoolOver<Pooling, A>;

impl<A: Allocator + Clone> PoolOver<Pooling, A> {
    /// Makes a pool of `numbers` numbers, of which none is held.
    ///
    /// # Errors
    ///
    /// - `OutOfRange`: `numbers` is not from 1 to 4096.
    /// - `NoMemory`: an allocation failed.
    pub fn new(alloc: A, numbers: u64) -> Result<WordPool<A>, Refusal> {
        let (pool, _) = WordPool::with_seat(alloc, numbers)?;
        Ok(pool)
    }
}

/// The words of a pool's numbers.
pub(crate) type Words = Shared<u8, PoolView, u64, Pooling>;

/// Swaps 1 into one word after another from place `from` to below `end`, until a word was 0.
fn take_from(
    table: &Words,
    _numbers: u64,
    mut seat: Seat<u8, PoolView>,
    from: u64,
    end: u64,
) -> Result<Held, AllHeld> {
    for place in from..end {
        let found = table.swap::<Take>(&mut seat, (place * STRIDE) as usize, 1);
        if found == 0 {
            return Ok(Held::of(seat, place));
        }
    }
    Err(AllHeld {
        _badge: seat.into_badge(),
    })
}

impl<A: Allocator> PoolOver<Pooling, A> {
    /// Takes the least number that a walk from 1 upward finds free (Moir and Anderson 1995).
    ///
    /// The walk passes a number only if it finds it held.
    ///
    /// # Errors
    ///
    /// `AllHeld`: the walk found each number held, one after another. They need not have been held at the same time.
    ///
    /// # Steps
    ///
    /// At most `n + 1` accesses to get number `n`, and at most `k` in all among `k` numbers, or `k + 1` if it lost a
    /// race.
    pub fn acquire(&self) -> Result<Held, AllHeld> {
        if self.numbers == 1 {
            let (found, seat) = self.table.shared.swap_new_seat::<ComeBySwap>(0, 1);
            return self.walk_by_swaps(seat, found, self.numbers);
        }
        let (found, seat) = self.table.shared.load_new_seat::<Come>(0);
        self.walk(seat, found, self.numbers)
    }

    /// The walk of a seat that has read the first word, over the places below `end`. It reads until it finds a word 0, and
    /// then swaps.
    pub(crate) fn walk(
        &self,
        mut seat: Seat<u8, PoolView>,
        found: u64,
        end: u64,
    ) -> Result<Held, AllHeld> {
        let place = if found == 0 {
            0
        } else {
            self.look_on(&mut seat, end)
        };
        take_from(&self.table.shared, self.numbers, seat, place, end)
    }

    /// The walk of a seat that has swapped into the first word, over the places below `end`. It goes on by swaps alone.
    pub(crate) fn walk_by_swaps(
        &self,
        seat: Seat<u8, PoolView>,
        found: u64,
        end: u64,
    ) -> Result<Held, AllHeld> {
        if found == 0 {
            return Ok(Held::of(seat, 0));
        }
        take_from(&self.table.shared, self.numbers, seat, 1, end)
    }

    /// Gives a number of this pool back, by one access.
    pub fn release(&self, held: Held) -> Released {
        Released {
            _badge: self.give_back(held),
        }
    }
}
