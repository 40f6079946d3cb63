// Erased by bindings/rust/erase from crates/tool_work/src/migrating.rt, sha256 11f507b39c7d0e91cd1928672dceed68f952bf7b7ce5d0d22d33c211a304048b.
//! The migration of a record that a reader gives.

use crate::kit::alloc::Global;
use crate::kit::Vec;
use crate::proved::text_checker::migrating::migrate;
use crate::proved::text_checker::verdict::Verdict;
use crate::proved::text_lines::fault::Fault;
use crate::proved::text_lines::replies::Replies;
use crate::proved::text_lines::sink::put_all;
use crate::proved::text_lines::sink::Sink;
use crate::proved::text_player::playing::READ_BYTES;
use crate::proved::text_player::source::Source;
use crate::proved::tool_work::checking::{put_verdict, read_whole};

/// Reads a record to its end, and writes it again in version 2 if its verdict is `Yes`, or else the line of its verdict.
///
/// Returns 0 for `Yes`, else 1.
///
/// # Errors
///
/// - `Read`: the reader failed, or was read 2^40 times. Nothing is written.
/// - `Memory`: an allocation failed. Nothing is written.
/// - `Write`: the writer failed or took no byte. A prefix of the text is written.
pub fn migrate_for<R: Source, W: Sink>(
    alloc: Global,
    reader: &mut R,
    writer: &mut W,
) -> Result<u8, Fault> {
    let Ok(mut line) = Replies::new(alloc) else {
        return Err(Fault::Memory);
    };
    let Ok(mut chunk) = Vec::from_elem(alloc, 0, READ_BYTES) else {
        return Err(Fault::Memory);
    };
    let bytes = read_whole(alloc, reader, &mut chunk)?;
    let verdict = migrate(alloc, bytes.as_slice(), writer)?;
    if verdict == Verdict::Yes {
        return Ok(0);
    }
    if verdict == Verdict::NoMemory {
        return Err(Fault::Memory);
    }
    put_verdict(verdict, &mut line);
    put_all(writer, line.as_slice())?;
    Ok(1)
}
