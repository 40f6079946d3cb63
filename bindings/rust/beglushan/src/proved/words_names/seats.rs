// Erased by bindings/rust/erase from crates/words_names/src/seats.rt, sha256 460f90af660cb33c8b4c537e24bf7339775ae61824075df66d63c228c43db944.
//! The seats: before they are dealt, before and after they are renamed, and what they can show of their names.

use crate::proved::model_recursion::namer::Namer;

/// The most seats.
pub const MOST_SEATS: usize = 64;

/// The seats that are still to be dealt, by rising number.
pub struct NameDealer {
    pub(crate) dealer: crate::proved::words_machine::seats::Dealer<Namer>,
    // The identities of the seats that were dealt come first.
    pub(crate) identities: [u64; MOST_SEATS],
}

impl NameDealer {
    /// Returns how many seats were dealt.
    pub fn dealt(&self) -> u64 {
        self.dealer.dealt()
    }
}

/// A seat that was not renamed. `rename` takes it, so no seat is renamed twice.
pub struct FreshNameSeat {
    pub(crate) identity: u64,
    pub(crate) seat: crate::proved::words_machine::seats::FreshSeat<Namer>,
}

impl FreshNameSeat {
    /// Returns the identity that the seat was dealt to.
    pub fn identity(&self) -> u64 {
        self.identity
    }
}

/// A seat that was renamed.
pub struct Renamed {
    pub(crate) seat: crate::proved::words_machine::seats::EnteredSeat<Namer>,
}

impl Renamed {
    /// Returns its name.
    ///
    /// Where `b` seats of `m` had begun when it got the name, itself among them, the name is from 1 to `2b - 1`, and the seat
    /// made at most `m(m + 1)` accesses.
    pub fn name(&self) -> u64 {
        u64::from(*self.seat.outcome())
    }
}
