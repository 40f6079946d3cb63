// Erased by bindings/rust/erase from crates/service_log/src/store.rt, sha256 e4dae170d255312a44fa8c993d953656afcdde5b53415c7b2ff4723fcc3bc388.
//! Stores: logs whose places are written once.

use crate::kit::Vec;
use crate::proved::service_log::store_fault::StoreFault;

/// The number of places of a store: 10^16.
pub const MOST_PLACES: u64 = 10_000_000_000_000_000;

/// What a put did.
#[derive(Clone, Copy, Debug, PartialEq, Eq)]
pub enum Put {
    /// This call wrote the entry at the place.
    Written,
    /// The place had an entry: another one, or this one from an earlier call whose answer was lost.
    Taken,
}

/// What an append did.
#[derive(Clone, Copy, Debug, PartialEq, Eq)]
pub enum Append {
    /// This call wrote the entry at this place. All places before it were taken.
    At(u64),
    /// This call wrote nothing: the place was taken.
    Nowhere,
}

/// Places from 0 on, each of which is written at most once, by the first caller.
///
/// No contract can say what a store over a network holds. The relations `stands` and `lacks` of such a store say
/// nothing.
pub trait Store: Sized {
    /// Writes an entry at a place below `MOST_PLACES`, if the place was never written.
    ///
    /// # Errors
    ///
    /// After any fault the entry may be at the place, or get there later. The fault is one of `fails`. `Gap` is
    /// returned only if a place before this one is empty.
    fn put(&mut self, place: u64, entry: &[u8]) -> Result<Put, StoreFault>;

    /// Writes an entry at the first place from `place` on that was never written, if it is one of the next ones. The store
    /// says how many it tries.
    ///
    /// # Errors
    ///
    /// After any fault the entry may be at one of these places, or get there later, and never at two of them. The fault is
    /// one of `fails`. `Gap` is returned only if a place before this one is empty.
    fn append(&mut self, place: u64, entry: &[u8]) -> Result<Append, StoreFault>;

    /// Stores the entry at a place in `entry`, in place of what it held. Returns false if the place is empty.
    ///
    /// # Errors
    ///
    /// A fault of `fails`. The log stays as it was. `Trimmed` is returned only if the entry was given up.
    fn get(&mut self, place: u64, entry: &mut Vec<u8>) -> Result<bool, StoreFault>;

    /// Returns the place that was noted last (`put_hint`), or `None` if there is none. It is a hint alone: any place may be
    /// returned.
    ///
    /// # Errors
    ///
    /// A fault of `fails`. The log stays as it was.
    fn hint(&mut self) -> Result<Option<u64>, StoreFault>;

    /// Notes a place beside the entries, in place of the one noted before.
    ///
    /// # Errors
    ///
    /// A fault of `fails`. The log stays as it was, and the place may be noted.
    fn put_hint(&mut self, place: u64) -> Result<(), StoreFault>;

    /// Gives up entries below a place, but never the first entry. These places stay taken for good (`law_of_trims`).
    ///
    /// One call may give up a part alone. It returns true if nothing is left to be given up below the place.
    ///
    /// # Errors
    ///
    /// A fault of `fails`. Entries below the place may be given up, unless it is `Gap`: a place below this one is empty.
    fn trim(&mut self, place: u64) -> Result<bool, StoreFault>;

    /// Returns the place below which entries were given up, or 0 if none were. It is a hint alone: any place may be returned.
    ///
    /// # Errors
    ///
    /// A fault of `fails`. The log stays as it was.
    fn trimmed(&mut self) -> Result<u64, StoreFault>;
}
