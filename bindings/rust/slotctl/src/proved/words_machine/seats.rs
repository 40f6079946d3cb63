// Erased by bindings/rust/erase from crates/words_machine/src/seats.rt, sha256 cf69398ac5ce4d54594a979970f0a89e2337157e0552e4f575797506f1fe07ea.
//! The seats: before they are dealt, before and after their participants' runs, and what they can show of how these ended.

use crate::kit::atomic_table::{Badge, Seat};
use crate::proved::words_machine::program::WordProgram;
use crate::proved::words_machine::seat_view::SeatView;

/// The seats that are still to be dealt, by rising number.
pub struct Dealer<P: WordProgram> {
    pub(crate) dealt: u64,
    pub(crate) badge: Badge<SeatView<P, P::Output>>,
}

impl<P: WordProgram> Dealer<P> {
    /// Returns how many seats were dealt.
    pub fn dealt(&self) -> u64 {
        self.dealt
    }
}

/// A seat whose participant has not begun. To enter uses it up, so no seat enters twice.
pub struct FreshSeat<P: WordProgram> {
    pub(crate) number: u64,
    pub(crate) seat: Seat<u8, SeatView<P, P::Output>>,
}

/// A seat whose participant has ended: at which program, and with what.
pub struct EnteredSeat<P: WordProgram> {
    pub(crate) _number: u64,
    pub(crate) identity: u64,
    pub(crate) _program: P,
    pub(crate) outcome: P::Output,
    pub(crate) accesses: u64,
    pub(crate) _badge: Badge<SeatView<P, P::Output>>,
}

impl<P: WordProgram> EnteredSeat<P> {
    /// Returns the identity for which it began.
    pub fn identity(&self) -> u64 {
        self.identity
    }

    /// Returns what its program has ended with.
    pub fn outcome(&self) -> &P::Output {
        &self.outcome
    }

    /// Returns how many accesses its program has made.
    pub fn accesses(&self) -> u64 {
        self.accesses
    }
}
