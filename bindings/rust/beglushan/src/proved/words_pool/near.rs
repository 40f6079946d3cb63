// Erased by bindings/rust/erase from crates/words_pool/src/near.rt, sha256 f188eedc84fdde0a9fded5dea013c595ac3b03faacb3ad3719ce59802fd4efa2.
//! A walk over a pool that begins at a hint.

use crate::kit::alloc::Allocator;
use crate::kit::atomic_table::Seat;
use crate::proved::words_pool::held::{AllHeld, Held};
use crate::proved::words_pool::pool_over::{PoolOver, STRIDE};
use crate::proved::words_pool::pool_steps::{Come, ComeBySwap, LookAside, Pooling, TakeAside};
use crate::proved::words_pool::pool_view::PoolView;
use crate::proved::words_pool::word_pool::Words;

/// Reads one word after another from place `from` on, and returns the first place that is free, or `numbers`.
fn look_aside(
    table: &Words,
    numbers: u64,
    seat: &mut Seat<u8, PoolView>,
    _first: u64,
    from: u64,
) -> u64 {
    for place in from..numbers {
        let found = table.load::<LookAside>(seat, (place * STRIDE) as usize);
        if found == 0 {
            return place;
        }
    }
    numbers
}

/// Swaps 1 into one word after another from place `from` on, until a word was 0. The seat comes back if none was.
fn take_aside(
    table: &Words,
    numbers: u64,
    mut seat: Seat<u8, PoolView>,
    _first: u64,
    from: u64,
) -> Result<Held, Seat<u8, PoolView>> {
    for place in from..numbers {
        let found = table.swap::<TakeAside>(&mut seat, (place * STRIDE) as usize, 1);
        if found == 0 {
            return Ok(Held::of(seat, place));
        }
    }
    Err(seat)
}

impl<A: Allocator> PoolOver<Pooling, A> {
    /// Takes the first number that a walk finds free: from `hint` up to the greatest, and then from 1 up to `hint`. It tries
    /// each number once.
    ///
    /// The walk passes a number only if it finds it held. A hint of 1, and one that is no number of this pool, is no hint:
    /// then this is `acquire`.
    ///
    /// # Errors
    ///
    /// `AllHeld`: the walk found each number held, one after another. They need not have been held at the same time.
    ///
    /// # Steps
    ///
    /// At most `n - hint + 2` accesses to get number `n` from `hint` on, so two to get the hint. At most `k` in all among `k`
    /// numbers, or `k + 1` if it lost a race.
    pub fn acquire_near(&self, hint: u64) -> Result<Held, AllHeld> {
        if hint <= 1 || self.numbers < hint {
            return self.acquire();
        }
        self.acquire_from(hint)
    }

    /// The walk of a call with a hint that is a number of this pool other than 1.
    fn acquire_from(&self, hint: u64) -> Result<Held, AllHeld> {
        let first = hint - 1;
        let table = &self.table.shared;
        let (found, mut seat) = table.load_new_seat::<LookAside>((first * STRIDE) as usize);
        let place = if found == 0 {
            first
        } else {
            look_aside(table, self.numbers, &mut seat, first, hint)
        };
        if place == self.numbers {
            return self.walk_below(seat, first);
        }
        match take_aside(table, self.numbers, seat, first, place) {
            Ok(held) => Ok(held),
            Err(seat) => self.walk_on(seat, first),
        }
    }

    /// The walk over the places below `end` of a seat at rest, which has met those from `end` on held.
    fn walk_below(&self, mut seat: Seat<u8, PoolView>, end: u64) -> Result<Held, AllHeld> {
        if end == 1 {
            return self.walk_on(seat, end);
        }
        let found = self.table.shared.load::<Come>(&mut seat, 0);
        self.walk(seat, found, end)
    }

    /// The same by swaps alone.
    fn walk_on(&self, mut seat: Seat<u8, PoolView>, end: u64) -> Result<Held, AllHeld> {
        let found = self.table.shared.swap::<ComeBySwap>(&mut seat, 0, 1);
        self.walk_by_swaps(seat, found, end)
    }
}
