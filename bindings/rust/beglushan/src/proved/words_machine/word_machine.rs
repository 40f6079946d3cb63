// Erased by bindings/rust/erase from crates/words_machine/src/word_machine.rt, sha256 7457ec56c638f7b9d6101009cebaf9f0e7bd853272d2de12d06037382219c938.
//! A machine over words.

use crate::kit::alloc::{AllocError, Allocator};
use crate::kit::atomic_table::Badge;
use crate::kit::Clone;
use crate::proved::words_machine::program::WordProgram;
use crate::proved::words_machine::seats::{Dealer, EnteredSeat, FreshSeat};
use crate::proved::words_machine::words::Words;
use core::mem;

/// A machine over words, whose participants are threads.
pub struct WordMachine<P: WordProgram, A: Allocator> {
    words: Words<P, A>,
}

impl<P: WordProgram, A: Allocator + Clone> WordMachine<P, A> {
    /// Makes a machine for so many seats, of which none has begun, and the dealer of its seats.
    ///
    /// # Errors
    ///
    /// Only if the allocation failed.
    pub fn new(alloc: A, most: u64) -> Result<(WordMachine<P, A>, Dealer<P>), AllocError> {
        let (words, rest) = Words::open(alloc, most)?;
        let badge = rest.into_badge();
        Ok((WordMachine { words }, Dealer { dealt: 0, badge }))
    }
}

impl<P: WordProgram, A: Allocator> WordMachine<P, A> {
    /// Returns how many seats there are at most.
    pub fn most(&self) -> u64 {
        self.words.most()
    }

    /// The seat of the least number that was not dealt, where there is one. The dealer is of this machine.
    pub fn deal(&self, dealer: &mut Dealer<P>) -> Option<FreshSeat<P>> {
        let number = dealer.dealt;
        if self.words.most() <= number {
            return None;
        }
        let mut rest = mem::replace(&mut dealer.badge, Badge::blank()).into_seat::<u8>();
        let seat = self.words.deal(&mut rest, number);
        dealer.dealt = number + 1;
        dealer.badge = rest.into_badge();
        Some(FreshSeat { number, seat })
    }
}

impl<P: WordProgram, A: Allocator> WordMachine<P, A> {
    /// Returns the number by which the machine knows a seat of this machine, from 1.
    pub fn own_number(&self, fresh: &FreshSeat<P>) -> u64 {
        // Opens the words, so that the range of `most`, which the number is below, is known.
        let _most = self.words.most();
        fresh.number + 1
    }

    /// Takes the program of the seat's participant for an identity, access by access, until it ends, whatever the other seats
    /// do: it makes no more accesses than the machine's bound. The seat is of this machine.
    pub fn enter(&self, fresh: FreshSeat<P>, identity: u64) -> EnteredSeat<P> {
        let FreshSeat { number, mut seat } = fresh;
        let mut program = P::start(self.words.most(), number + 1, identity);
        let (outcome, accesses) = self.words.run(&mut seat, number, identity, &mut program);
        EnteredSeat {
            _number: number,
            _identity: identity,
            program,
            outcome,
            _accesses: accesses,
            _badge: seat.into_badge(),
        }
    }
}
