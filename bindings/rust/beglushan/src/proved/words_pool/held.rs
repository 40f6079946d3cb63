// Erased by bindings/rust/erase from crates/words_pool/src/held.rt, sha256 630f2245c909088bf26a9be9d7234d4b70dd31d7c1a040c08a6ea068ae8fb251.
//! What a call of a pool returns: a held number, that all were found held, the receipt of a number given back, and what was
//! held at the end.

use crate::kit::atomic_table::{Badge, Seat};
use crate::proved::words_pool::pool_view::PoolView;

/// A number of a pool that no other thread holds. It takes no bytes but the number's.
///
/// Give it to `release`: if it is dropped, the number stays held.
pub struct Held {
    pub(crate) place: u64,
    pub(crate) badge: Badge<PoolView>,
}

impl Held {
    /// The number of a seat whose call holds this place.
    pub(crate) fn of(seat: Seat<u8, PoolView>, place: u64) -> Held {
        Held {
            place,
            badge: seat.into_badge(),
        }
    }

    /// Returns the number: from 1 to 4096.
    pub fn number(&self) -> u64 {
        self.place + 1
    }
}

/// A call found each number of a pool held, one after another. It takes no bytes.
pub struct AllHeld {
    pub(crate) _badge: Badge<PoolView>,
}

/// The receipt of a number that was given back. It takes no bytes.
pub struct Released {
    pub(crate) _badge: Badge<PoolView>,
}
