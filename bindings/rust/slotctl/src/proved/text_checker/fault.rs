// Erased by bindings/rust/erase from crates/text_checker/src/fault.rt, sha256 4a817a67a13cdc836296f53751622356ad8bd4beb92c8618ff700d6ddf957f77.
//! Why a checker stops.

use crate::kit::alloc::AllocError;
use crate::proved::text_checker::reason::Reason;

/// Why a checker stops at a line.
#[derive(Clone, Copy)]
pub enum Fault {
    /// The line can't follow those before it.
    Unlawful(Reason),
    /// An allocation failed.
    NoMemory,
}

impl Fault {
    /// Returns the reason.
    ///
    /// # Errors
    ///
    /// `AllocError`: an allocation failed.
    pub fn reported(self) -> Result<Option<Reason>, AllocError> {
        match self {
            Fault::Unlawful(reason) => Ok(Some(reason)),
            Fault::NoMemory => Err(AllocError),
        }
    }
}

impl From<AllocError> for Fault {
    fn from(_refused: AllocError) -> Fault {
        Fault::NoMemory
    }
}
