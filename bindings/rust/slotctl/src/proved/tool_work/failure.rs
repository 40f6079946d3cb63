// Erased by bindings/rust/erase from crates/tool_work/src/failure.rt, sha256 cef03c6a16190b57a761824c0f112f2d5add9164962feebacb2b119cd1d0d575.
//! Why the program did not do what it was asked.

use crate::kit::thiserror::Error;
use crate::proved::text_lines::fault::Fault;
use crate::proved::tool_work::misuse::Misuse;

/// Why the program did nothing, or did not come to its end. Its `Display` is the text for the user.
#[derive(Debug, Error)]
pub enum Failure {
    /// The words of its command line ask for nothing, or for help.
    #[error("{0}")]
    Misuse(#[from] Misuse),
    /// The record is one of no run. These are the numbers of its first line at fault and of the reason.
    #[error("no {0} {1}\n")]
    No(u64, u8),
    /// The line of this number is none of a record.
    #[error("bad record {0}\n")]
    BadRecord(u64),
    /// A read, a write or an allocation failed.
    #[error("slotctl: {0}\n")]
    Fault(#[from] Fault),
}

impl Failure {
    /// Returns the status of the program.
    ///
    /// It is 0 for help, 1 for a record that is not shown, 2 for words that are refused, and 3 for a fault or an allocation failure.
    pub fn status(&self) -> u8 {
        match self {
            Failure::Misuse(Misuse::Help(_)) => 0,
            Failure::Misuse(Misuse::Words(_)) => 2,
            Failure::Misuse(Misuse::Memory) => 3,
            Failure::No(_, _) => 1,
            Failure::BadRecord(_) => 1,
            Failure::Fault(_) => 3,
        }
    }
}
