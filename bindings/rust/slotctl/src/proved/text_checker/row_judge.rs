// Erased by bindings/rust/erase from crates/text_checker/src/row_judge.rt, sha256 b7e46571fb015e3d251cf8da6d9b3badd80d42720405993814639c5fce949aa5.
//! Judges the event lines of a record one by one.

use crate::kit::alloc::{AllocError, Global};
use crate::proved::text_checker::checker::Checker;
use crate::proved::text_checker::record::taken;
use crate::proved::text_checker::verdict::Verdict;
use crate::proved::text_records::header::Header;

/// Judges the event lines of a record one by one.
pub struct RowJudge {
    header: Header,
    checker: Checker,
    number: u64,
}

impl RowJudge {
    /// Makes a judge that has judged no event line of a record with this header.
    ///
    /// # Errors
    ///
    /// `AllocError`: the allocation failed.
    pub fn new(alloc: Global, header: Header) -> Result<RowJudge, AllocError> {
        let checker = Checker::new(alloc, header.config, 0)?;
        Ok(RowJudge {
            header,
            checker,
            number: 2,
        })
    }

    /// Judges one more line, without its LF. Returns the verdict on the record if this line is the first at fault.
    ///
    /// After a verdict or an error the judge is of no use.
    ///
    /// # Errors
    ///
    /// `AllocError`: the allocation failed.
    pub fn take(&mut self, alloc: Global, row: &[u8]) -> Result<Option<Verdict>, AllocError> {
        match taken(alloc, self.header, self.number, row, &mut self.checker)? {
            Ok(_) => {}
            Err(verdict) => return Ok(Some(verdict)),
        }
        self.number += 1;
        Ok(None)
    }
}
