// Erased by bindings/rust/erase from crates/text_lines/src/fault.rt, sha256 14bdd705dd89c1bedb9977db14fb138ab62a8e1307651303bc800bd59f51653f.
//! Why a run ended early.

use std::error::Error;
use std::fmt;

/// Why a run ended early.
#[derive(Clone, Copy, Debug, PartialEq, Eq)]
pub enum Fault {
    /// The reader failed, or the limit of reads was reached.
    Read = 1,
    /// The writer failed, or took no byte.
    Write = 2,
    /// An allocation failed.
    Memory = 3,
}

impl fmt::Display for Fault {
    fn fmt(&self, f: &mut fmt::Formatter<'_>) -> fmt::Result {
        f.write_str(match self {
            Fault::Read => "read fault",
            Fault::Write => "write fault",
            Fault::Memory => "no memory",
        })
    }
}

impl Error for Fault {}
