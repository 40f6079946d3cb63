// Erased by bindings/rust/erase from crates/text_checker/src/verdict.rt, sha256 b2907f15c027aa0192ebe1937866184173c59bdfd881e8cac879b07225f14e9b.
//! The verdict on a record.

use crate::proved::text_checker::reason::Reason;

/// The verdict on a record. Lines are numbered from 1, which is the header.
#[derive(Clone, Copy, Debug, PartialEq, Eq)]
pub enum Verdict {
    /// It is a record of a run.
    Yes,
    /// The line with this number cannot follow those before it, for this reason.
    No(u64, Reason),
    /// The line with this number is no line of a record.
    BadRecord(u64),
    /// An allocation failed.
    NoMemory,
}
