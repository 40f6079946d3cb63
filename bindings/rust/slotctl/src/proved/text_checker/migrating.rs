// Erased by bindings/rust/erase from crates/text_checker/src/migrating.rt, sha256 78f2ead461b0bb61dfbc559c5ca22044188453685a2642557a437840e4acfafb.
//! A record is written again, in version 2.

use crate::kit::alloc::{AllocError, Global};
use crate::proved::text_checker::migration::Migration;
use crate::proved::text_checker::record::{judge_rows, opened};
use crate::proved::text_checker::verdict::Verdict;
use crate::proved::text_lines::fault::Fault;
use crate::proved::text_lines::sink::put_all;
use crate::proved::text_lines::sink::Sink;
use crate::proved::text_records::text::Text;

/// The text of a record in version 2, or the verdict on it if that is not `Yes`.
fn migrated(alloc: Global, bytes: &[u8]) -> Result<Result<Text, Verdict>, AllocError> {
    let Some((header, rows)) = opened(alloc, bytes)? else {
        return Ok(Err(Verdict::BadRecord(1)));
    };
    let mut migration = Migration::new(alloc, header.config)?;
    match judge_rows(alloc, header, rows, &mut migration)? {
        Verdict::Yes => Ok(Ok(migration.into_text())),
        verdict => Ok(Err(verdict)),
    }
}

/// Writes a record again in version 2 if it is one of a run, and returns the verdict on it. Otherwise it writes
/// nothing.
///
/// A view by which a name was given and that is not written is the first by which it could be given. If an allocation
/// fails, the verdict is `NoMemory`.
///
/// # Errors
///
/// `Write`: a write failed or took no byte. A prefix of the text is written.
pub fn migrate<W: Sink>(alloc: Global, bytes: &[u8], writer: &mut W) -> Result<Verdict, Fault> {
    match migrated(alloc, bytes) {
        Ok(Ok(text)) => {
            put_all(writer, text.as_slice())?;
            Ok(Verdict::Yes)
        }
        Ok(Err(verdict)) => Ok(verdict),
        Err(_) => Ok(Verdict::NoMemory),
    }
}
