// Erased by bindings/rust/erase from crates/tool_work/src/page/showing.rt, sha256 a330bb1e4e46429d6870b181871798b0ae1fc73e8ef49d79d4380fa70060894f.
//! A record is shown as a page.

use crate::kit::alloc::{AllocError, Global};
use crate::proved::text_checker::record::{judge_rows, opened};
use crate::proved::text_checker::verdict::Verdict;
use crate::proved::text_lines::fault::Fault;
use crate::proved::text_lines::sink::put_all;
use crate::proved::text_lines::sink::Sink;
use crate::proved::text_records::text::Text;
use crate::proved::tool_work::page::sheet::Sheet;
use crate::proved::tool_work::page::stretch::Stretch;

/// Returns the page of a record, or another verdict than `Yes`. It fails if an allocation failed.
fn shown(
    alloc: Global,
    bytes: &[u8],
    stretch: Stretch,
) -> Result<Result<Text, Verdict>, AllocError> {
    let Some((header, rows)) = opened(alloc, bytes)? else {
        return Ok(Err(Verdict::BadRecord(1)));
    };
    let mut sheet = Sheet::new(alloc, header.config, stretch)?;
    match judge_rows(alloc, header, rows, &mut sheet)? {
        Verdict::Yes => {
            let page = sheet.into_page(alloc, stretch)?;
            Ok(Ok(page))
        }
        verdict => Ok(Err(verdict)),
    }
}

/// Writes the page of a stretch of a record, if it is the record of a run, and returns the verdict on it.
///
/// It returns `Yes` if the page is written. With another verdict nothing is written. `NoMemory` says that an allocation failed.
///
/// # Errors
///
/// - `Write`: the writer failed. A prefix of the page is written.
pub fn show<W: Sink>(
    alloc: Global,
    bytes: &[u8],
    stretch: Stretch,
    writer: &mut W,
) -> Result<Verdict, Fault> {
    match shown(alloc, bytes, stretch) {
        Ok(Ok(text)) => {
            put_all(writer, text.as_slice())?;
            Ok(Verdict::Yes)
        }
        Ok(Err(verdict)) => Ok(verdict),
        Err(_) => Ok(Verdict::NoMemory),
    }
}
