// Erased by bindings/rust/erase from crates/model_steps/src/refusal.rt, sha256 603d36beccbd11847b34075d3cc4cf52faa8078ea69647b4b60ed7bfdfd78cb7.
//! Why a call fails.

use crate::kit::alloc::AllocError;
use core::error::Error;
use core::fmt;

/// An allocation failed.
#[derive(Clone, Copy, Debug, PartialEq, Eq)]
pub struct NoMemory;

/// Why a call failed. A call that fails changes nothing. (The numbers are this project's own.)
#[derive(Clone, Copy, Debug, PartialEq, Eq)]
pub enum Refusal {
    /// The identity is 0.
    ZeroIdentity = 1,
    /// The identity has begun; or, where operations take several steps, another of the same identity is pending.
    AlreadyBegun = 2,
    /// As many participants as the world takes have begun.
    Full = 3,
    /// An allocation failed in this call.
    NoMemory = 12,
    /// A parameter is outside its range.
    OutOfRange = 14,
}

impl fmt::Display for Refusal {
    fn fmt(&self, f: &mut fmt::Formatter<'_>) -> fmt::Result {
        f.write_str(match self {
            Refusal::ZeroIdentity => "the identity is 0",
            Refusal::AlreadyBegun => "the identity has begun already",
            Refusal::Full => "as many participants as there may be have begun",
            Refusal::NoMemory => "no memory",
            Refusal::OutOfRange => "a parameter is outside its range",
        })
    }
}

impl Error for Refusal {}

impl From<NoMemory> for Refusal {
    fn from(_refused: NoMemory) -> Refusal {
        Refusal::NoMemory
    }
}

impl From<AllocError> for Refusal {
    fn from(_refused: AllocError) -> Refusal {
        Refusal::NoMemory
    }
}
