// Erased by bindings/rust/erase from crates/tool_work/src/showing.rt, sha256 e48fe429f1c931bf51bd1409fc9310152081988afb21d36b3ff7f2473a2311f0.
//! The page of a record that a reader gives.

use crate::kit::alloc::Global;
use crate::kit::Vec;
use crate::proved::text_checker::verdict::Verdict;
use crate::proved::text_lines::fault::Fault;
use crate::proved::text_lines::sink::Sink;
use crate::proved::text_player::playing::READ_BYTES;
use crate::proved::text_player::source::Source;
use crate::proved::tool_work::asked::Showing;
use crate::proved::tool_work::checking::read_whole;
use crate::proved::tool_work::failure::Failure;
use crate::proved::tool_work::outcome::Outcome;
use crate::proved::tool_work::page::showing::show;
use crate::proved::tool_work::page::stretch::Stretch;

// Returns the stretch that is asked for.
fn stretch_asked(showing: Showing) -> Stretch {
    Stretch {
        from: showing.from,
        count: showing.count,
    }
}

/// Reads a record to its end, writes its page if its verdict is `Yes`, and returns the verdict. With another verdict it writes nothing.
///
/// # Errors
///
/// - `Read`: the reader failed, or was read 2^40 times. Nothing is written.
/// - `Memory`: an allocation failed. Nothing is written.
/// - `Write`: the writer failed or took no byte. A prefix of the page is written.
pub fn show_for<R: Source, W: Sink>(
    alloc: Global,
    showing: Showing,
    reader: &mut R,
    writer: &mut W,
) -> Result<Verdict, Fault> {
    let Ok(mut chunk) = Vec::from_elem(alloc, 0, READ_BYTES) else {
        return Err(Fault::Memory);
    };
    let bytes = read_whole(alloc, reader, &mut chunk)?;
    let verdict = show(alloc, bytes.as_slice(), stretch_asked(showing), writer)?;
    Ok(verdict)
}

/// Returns how the program ends once a record was shown.
///
/// # Errors
///
/// - `No`, `BadRecord`: the verdict is no `Yes`.
/// - `Fault`: an allocation or the writer failed.
pub fn after_showing<'a>(shown: Result<Verdict, Fault>) -> Result<Outcome<'a>, Failure> {
    match shown {
        Ok(Verdict::Yes) => Ok(Outcome::Ended(0)),
        Ok(Verdict::No(number, reason)) => Err(Failure::No(number, reason.number())),
        Ok(Verdict::BadRecord(number)) => Err(Failure::BadRecord(number)),
        Ok(Verdict::NoMemory) => Err(Failure::Fault(Fault::Memory)),
        Err(fault) => Err(Failure::Fault(fault)),
    }
}
