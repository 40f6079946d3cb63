// Erased by bindings/rust/erase from crates/tool_work/src/misuse.rt, sha256 dc4e43f9b9e586af7fea0d497fdb8b4f17ccbee820f2d16688c449f315b7e7f1.
//! Why words of a command line ask for nothing.

use crate::kit::alloc::AllocError;
use crate::kit::thiserror::Error;
use crate::kit::String;

/// Why words of a command line ask for nothing. Its `Display` is the text for the user.
#[derive(Debug, Error)]
pub enum Misuse {
    /// They ask for help or for the version. This is its text.
    #[error("{0}")]
    Help(String),
    /// They are refused. This text says why.
    #[error("{0}")]
    Words(String),
    /// An allocation failed.
    #[error("slotctl: no memory\n")]
    Memory,
}

impl From<AllocError> for Misuse {
    fn from(_error: AllocError) -> Misuse {
        Misuse::Memory
    }
}
