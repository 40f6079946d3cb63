// Erased by bindings/rust/erase from crates/words_pool/src/line_pool.rt, sha256 aa7e1f6243ffd19e5a0540544e71778a2311b2486587bb0e6943f1d34155800b.
//! A pool with as many tickets as numbers.

use crate::kit::alloc::Allocator;
use crate::kit::atomic_table::Seat;
use crate::kit::Clone;
use crate::proved::model_steps::refusal::Refusal;
use crate::proved::words_pool::held::Held;
use crate::proved::words_pool::line_steps::{
    ComeBySwapInLine, DealNumber, Lining, Never, TakeInLine,
};
use crate::proved::words_pool::pool_over::{PoolOver, STRIDE};
use crate::proved::words_pool::pool_steps::Come;
use crate::proved::words_pool::pool_view::PoolView;
use crate::proved::words_pool::ticket::{Ticket, Tickets};

/// A line: the numbers from 1 on, each with a shared atomic word, and as many tickets. A thread with a ticket always
/// gets a number.
pub type LinePool<A> = PoolOver<Lining, A>;

impl<A: Allocator + Clone> PoolOver<Lining, A> {
    /// Makes a line of `numbers` numbers, of which none is held, and as many tickets.
    ///
    /// # Errors
    ///
    /// - `OutOfRange`: `numbers` is not from 1 to 4096.
    /// - `NoMemory`: an allocation failed.
    pub fn new(alloc: A, numbers: u64) -> Result<(LinePool<A>, Tickets), Refusal> {
        let (line, seat) = LinePool::with_seat(alloc, numbers)?;
        let left = numbers;
        Ok((line, Tickets { left, seat }))
    }
}

impl<A: Allocator> PoolOver<Lining, A> {
    /// Deals a ticket of this line, or returns `None` if none is left.
    pub fn deal(&self, tickets: &mut Tickets) -> Option<Ticket> {
        if tickets.left == 0 {
            return None;
        }
        let Tickets { left, seat } = tickets;
        *left -= 1;
        let dealt = self.table.shared.split_seat::<DealNumber>(seat);
        Some(Ticket {
            badge: dealt.into_badge(),
        })
    }

    /// Takes the least number that a walk from 1 upward finds free, for a ticket of this line (Moir and Anderson 1995).
    ///
    /// The walk passes a number only if it finds it held. The number is at most the most calls that competed, held or
    /// sought, at one moment of this call: `crowds` has how many did at each moment, and `law_of_the_line` says so of
    /// every call. `release` returns the ticket.
    ///
    /// # Steps
    ///
    /// At most `n + 1` accesses to get number `n`, and at most `k` in all among `k` numbers, or `k + 1` if it lost a
    /// race.
    pub fn acquire(&self, ticket: Ticket) -> Held {
        let Ticket { badge } = ticket;
        let mut seat = badge.into_seat::<u8>();
        if self.numbers == 1 {
            let found = self.table.shared.swap::<ComeBySwapInLine>(&mut seat, 0, 1);
            if found == 0 {
                return Held::of(seat, 0);
            }
            return self.take_from(seat, 1);
        }
        let found = self.table.shared.load::<Come>(&mut seat, 0);
        let place = if found == 0 {
            0
        } else {
            self.look_on(&mut seat, self.numbers)
        };
        self.take_from(seat, place)
    }

    /// Swaps 1 into one word after another from place `from` on, until a word was 0.
    fn take_from(&self, mut seat: Seat<u8, PoolView>, from: u64) -> Held {
        for place in from..self.numbers {
            let found =
                self.table
                    .shared
                    .swap::<TakeInLine>(&mut seat, (place * STRIDE) as usize, 1);
            if found == 0 {
                return Held::of(seat, place);
            }
        }
        // No seat is past the last number, so this is never reached.
        self.table.shared.load::<Never>(&mut seat, 0);
        unreachable!()
    }

    /// Gives a number of this line back, by one access, and returns the ticket.
    pub fn release(&self, held: Held) -> Ticket {
        Ticket {
            badge: self.give_back(held),
        }
    }
}
