// Erased by bindings/rust/erase from crates/model_pool/src/stay.rt, sha256 4313e23ec3da3756a4b9375dc82264a499f2fce19118d29dfaef57de5dd6d2c6.
//! The state of a competitor, from `enter` to `leave`.

use crate::proved::model_pool::probe::Probe;
use crate::proved::model_steps::access::{Access, Answer};

/// The own state of a competitor (Moir and Anderson 1995). It and the size of the pool fix the next access.
#[derive(Clone, Copy, Debug, PartialEq, Eq)]
pub enum Stay {
    /// It holds no number, and missed each bit below this one. It probes this one next.
    Seeking(u32),
    /// It holds this number.
    Settled(u32),
}

impl Stay {
    /// Returns the access of the next probe, in a pool of this size: the last number has no bit.
    pub(crate) fn probe_access(self, size: u32) -> Access<usize, ()> {
        match self {
            Stay::Seeking(next) => {
                if next < size {
                    Access::TestAndSet(next as usize)
                } else {
                    Access::Nothing
                }
            }
            Stay::Settled(_) => Access::Nothing,
        }
    }

    /// Returns the state after the next probe, for this answer to its access.
    pub(crate) fn probed(self, size: u32, got: Answer<()>) -> Stay {
        match (self, got) {
            (Stay::Seeking(next), Answer::WasSet(true)) => {
                if u64::from(next) + 1 < u64::from(size) {
                    Stay::Seeking(next + 1)
                } else {
                    Stay::Settled(size)
                }
            }
            (Stay::Seeking(next), Answer::WasSet(false)) => Stay::Settled(next),
            (Stay::Seeking(_), Answer::Value(_)) => Stay::Settled(size),
            (Stay::Seeking(_), Answer::Done) => Stay::Settled(size),
            (Stay::Settled(number), _) => Stay::Settled(number),
        }
    }

    /// Returns the reply of a probe that led to this state.
    pub(crate) fn probe_reply(self) -> Probe {
        match self {
            Stay::Seeking(_) => Probe::Missed,
            Stay::Settled(number) => Probe::Got(number),
        }
    }

    /// Returns the access that gives the number back, in a pool of this size: the last number has no bit.
    pub(crate) fn leave_access(self, size: u32) -> Access<usize, ()> {
        match self {
            Stay::Seeking(_) => Access::Nothing,
            Stay::Settled(number) => {
                if number < size {
                    Access::Clear(number as usize)
                } else {
                    Access::Nothing
                }
            }
        }
    }

    /// Whether it holds this number.
    pub(crate) fn holds(self, number: u32) -> bool {
        match self {
            Stay::Seeking(_) => false,
            Stay::Settled(held) => held == number,
        }
    }
}
