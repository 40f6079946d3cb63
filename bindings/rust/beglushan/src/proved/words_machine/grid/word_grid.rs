// Erased by bindings/rust/erase from crates/words_machine/src/grid/word_grid.rt, sha256 f0a8a08c1fbd1bddb20883d4d90f195f3896ff4ce3a2aab4562e7ef0afd8d883.
//! The grid.

use crate::kit::alloc::Allocator;
use crate::kit::Clone;
use crate::proved::model_splitter::grid::walker::Walker;
use crate::proved::model_steps::refusal::Refusal;
use crate::proved::words_machine::grid::seats::{EnteredGridSeat, FreshGridSeat, GridDealer};
use crate::proved::words_machine::word_machine::WordMachine;

/// The most seats of a grid.
const MOST_SEATS: u64 = 64;

/// A triangular grid of splitters on shared atomic words (Moir and Anderson 1995), for a fixed number of seats.
pub struct WordGrid<A: Allocator> {
    machine: WordMachine<Walker, A>,
}

impl<A: Allocator + Clone> WordGrid<A> {
    /// Makes a grid that no seat has entered, and the dealer of its seats.
    ///
    /// # Errors
    ///
    /// - `OutOfRange`: `most` is not from 1 to 64.
    /// - `NoMemory`: an allocation failed.
    pub fn new(alloc: A, most: u64) -> Result<(WordGrid<A>, GridDealer), Refusal> {
        if most < 1 || MOST_SEATS < most {
            return Err(Refusal::OutOfRange);
        }
        let (machine, dealer) = WordMachine::new(alloc, most)?;
        Ok((WordGrid { machine }, dealer))
    }
}

impl<A: Allocator> WordGrid<A> {
    /// Returns the most seats: from 1 to 64.
    pub fn most(&self) -> u64 {
        self.machine.most()
    }

    /// Deals the seat of the least number that was not dealt, or returns `None` if all seats were dealt. The dealer is
    /// of this grid.
    pub fn deal(&self, dealer: &mut GridDealer) -> Option<FreshGridSeat> {
        self.machine.deal(dealer)
    }

    /// Makes the walk of a seat of this grid, by reads and writes (Moir and Anderson 1995).
    ///
    /// The walk goes from the corner, right or down as each splitter says, until it stops. If no other walk had begun
    /// when it ended, it has place 0.
    ///
    /// # Steps
    ///
    /// At most `4b` accesses, where `b` walks had begun when this one ended, whatever the other seats do.
    pub fn enter(&self, fresh: FreshGridSeat) -> EnteredGridSeat {
        let own = self.machine.own_number(&fresh);
        let seat = self.machine.enter(fresh, own);
        EnteredGridSeat { seat }
    }
}
