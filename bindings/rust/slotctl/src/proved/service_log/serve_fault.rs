// Erased by bindings/rust/erase from crates/service_log/src/serve_fault.rt, sha256 3a2ad935b68e2d22cbb2e32d8087699c0fb52a9a23cd9d2270fc72d58c85da50.
//! Why a replica does not answer a batch.

use crate::proved::service_log::machine::ApplyFault;
use crate::proved::service_log::store_fault::StoreFault;
use std::error::Error;
use std::fmt;

/// What kept a replica from its next step. The entries that it applied stay applied. It can go on unless it is
/// poisoned.
#[derive(Clone, Copy, Debug, PartialEq, Eq)]
pub enum Cause {
    /// The store failed with this fault.
    Store(StoreFault),
    /// An allocation failed while the replica applied an entry. This poisons the replica.
    Memory,
    /// An entry of the log is damaged. This poisons the replica.
    Damaged,
    /// The replica was poisoned before. Nothing is known of its machine, and it never goes on.
    Poisoned,
    /// The log has no place left.
    Full,
    /// The replica made `MOST_STEPS` steps, and other replicas wrote first each time.
    Busy,
}

impl Cause {
    /// The cause that is behind an entry which was not applied.
    pub(crate) fn of_apply(fault: ApplyFault) -> Cause {
        match fault {
            ApplyFault::Memory => Cause::Memory,
            ApplyFault::Damaged => Cause::Damaged,
        }
    }
}

impl fmt::Display for Cause {
    fn fmt(&self, f: &mut fmt::Formatter<'_>) -> fmt::Result {
        match self {
            Cause::Store(fault) => write!(f, "{fault}"),
            Cause::Memory => f.write_str("no memory to apply an entry"),
            Cause::Damaged => f.write_str("an entry of the log is damaged"),
            Cause::Poisoned => f.write_str("an earlier entry was not applied"),
            Cause::Full => f.write_str("the log is full"),
            Cause::Busy => f.write_str("others came first"),
        }
    }
}

impl Error for Cause {}

/// Why a replica does not answer a batch.
#[derive(Clone, Copy, Debug, PartialEq, Eq)]
pub enum ServeFault {
    /// The batch has more than `MOST_BATCH` bytes. It was not offered to the store.
    TooLong,
    /// The fate of the batch is not known: it may be in the log, or get there later.
    ///
    /// A caller may ask the same replica to serve it again, and it is then in the log once. A poisoned replica never
    /// serves it.
    Unknown(Cause),
}

impl fmt::Display for ServeFault {
    fn fmt(&self, f: &mut fmt::Formatter<'_>) -> fmt::Result {
        match self {
            ServeFault::TooLong => f.write_str("the batch is too long"),
            ServeFault::Unknown(cause) => {
                write!(f, "the fate of the batch is not known: {cause}")
            }
        }
    }
}

impl Error for ServeFault {}
