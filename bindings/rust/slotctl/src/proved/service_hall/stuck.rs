// Erased by bindings/rust/erase from crates/service_hall/src/stuck.rt, sha256 e19a78974ec58d1d372a22a0ab532bb9ae7e38e252a7ae90a9ecddb777339102.
//! Why a hall is not rebuilt.

use crate::kit::alloc::{AllocError, AllocFailed};
use crate::proved::model_steps::refusal::Refusal;

/// An event was refused, or an allocation failed.
#[derive(Clone, Copy, Debug, PartialEq, Eq)]
pub(crate) struct Stuck;

impl From<AllocError> for Stuck {
    fn from(_refused: AllocError) -> Stuck {
        Stuck
    }
}

impl<T> From<AllocFailed<T>> for Stuck {
    fn from(_refused: AllocFailed<T>) -> Stuck {
        Stuck
    }
}

impl From<Refusal> for Stuck {
    fn from(_refused: Refusal) -> Stuck {
        Stuck
    }
}
