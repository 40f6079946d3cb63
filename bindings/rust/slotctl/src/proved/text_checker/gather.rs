// Erased by bindings/rust/erase from crates/text_checker/src/gather.rt, sha256 6c9b4effab3fcebb53c67c3ffb95c79303ff1572c2a7f1fa9b914b7f95226d9f.
//! What is built of the lines that were taken.

use crate::kit::alloc::AllocError;
use crate::proved::text_records::line::Row;

/// What is built of the lines that can follow those before them.
pub trait Gather: Sized {
    /// Adds a line, which can follow those before it. It was read of these bytes.
    ///
    /// # Errors
    ///
    /// `AllocError`: the allocation failed. What is built is then of no use.
    fn take(&mut self, row: &Row, bytes: &[u8]) -> Result<(), AllocError>;
}

/// Builds nothing.
pub struct Nothing;

impl Gather for Nothing {
    #[inline(always)]
    fn take(&mut self, _row: &Row, _bytes: &[u8]) -> Result<(), AllocError> {
        Ok(())
    }
}
