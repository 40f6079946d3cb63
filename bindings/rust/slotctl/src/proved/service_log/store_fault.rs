// Erased by bindings/rust/erase from crates/service_log/src/store_fault.rt, sha256 00198962a984a2c9e246238a8cf74150cffbbda3b8847cf212b1a2d2a496a366.
//! Why a store does not answer.

use crate::kit::thiserror::Error;

/// Why a store does not answer. After a put that fails its entry may be at its place, or get there later.
#[derive(Clone, Copy, Debug, PartialEq, Eq, Error)]
pub enum StoreFault {
    /// An allocation failed.
    #[error("no memory")]
    Memory,
    /// No answer came, or none in time.
    #[error("the store does not answer")]
    Lost,
    /// The answer was not one that a store gives.
    #[error("the store answers wrongly")]
    Wrong,
    /// The store has no room for more: its quota is used up.
    #[error("etcdserver: mvcc: database space exceeded")]
    NoSpace,
    /// The place before this one does not hold what was written or read there. The store was put back to an older
    /// state.
    #[error("the log went back")]
    WentBack,
    /// The entry at this place was given up (`Store::trim`). The place is taken for good.
    #[error("the log was trimmed here")]
    Trimmed,
}
