// Erased by bindings/rust/erase from crates/model_steps/src/refusal.rt, sha256 603d36beccbd11847b34075d3cc4cf52faa8078ea69647b4b60ed7bfdfd78cb7.
//! Why a call fails.

use crate::kit::alloc::AllocError;
use std::error::Error;
use std::fmt;

/// An allocation failed.
#[derive(Clone, Copy, Debug, PartialEq, Eq)]
pub struct NoMemory;

/// Why a call failed. A call that fails changes nothing. (The numbers are this project's own.)
#[derive(Clone, Copy, Debug, PartialEq, Eq)]
pub enum Refusal {
    /// The identity is 0.
    ZeroIdentity = 1,
    /// The identity has begun; or, where operations take several steps, another of the same identity is pending.
    AlreadyBegun = 2,
    /// As many participants as the world takes have begun.
    Full = 3,
    /// The identity has not begun.
    NotBegun = 4,
    /// The participant has ended, or nothing of it is pending.
    Finished = 5,
    /// The participant has used up its rounds or its updates.
    Spent = 6,
    /// As many compete as the pool has numbers.
    Crowded = 7,
    /// The identity does not compete.
    NotCompeting = 8,
    /// The identity competes already.
    AlreadyCompeting = 9,
    /// The identity holds a number already.
    Holding = 10,
    /// The identity competes and holds no number.
    NotHolding = 11,
    /// An allocation failed in this call.
    NoMemory = 12,
    /// The history is full.
    HistoryFull = 13,
    /// A parameter is outside its range.
    OutOfRange = 14,
}

impl Refusal {
    /// Returns the number of the refusal, from 1 to 14, as replies and records write it.
    pub fn number(self) -> u8 {
        self as u8
    }
}

impl fmt::Display for Refusal {
    fn fmt(&self, f: &mut fmt::Formatter<'_>) -> fmt::Result {
        f.write_str(match self {
            Refusal::ZeroIdentity => "the identity is 0",
            Refusal::AlreadyBegun => "the identity has begun already",
            Refusal::Full => "as many participants as there may be have begun",
            Refusal::NotBegun => "the identity has not begun",
            Refusal::Finished => "the participant has ended",
            Refusal::Spent => "the participant is spent",
            Refusal::Crowded => "as many compete as there are numbers",
            Refusal::NotCompeting => "the identity does not compete",
            Refusal::AlreadyCompeting => "the identity competes already",
            Refusal::Holding => "the identity holds a number already",
            Refusal::NotHolding => "the identity holds no number",
            Refusal::NoMemory => "no memory",
            Refusal::HistoryFull => "the history is full",
            Refusal::OutOfRange => "a parameter is outside its range",
        })
    }
}

impl Error for Refusal {}

impl From<NoMemory> for Refusal {
    fn from(_refused: NoMemory) -> Refusal {
        Refusal::NoMemory
    }
}

impl From<AllocError> for Refusal {
    fn from(_refused: AllocError) -> Refusal {
        Refusal::NoMemory
    }
}
