// Erased by bindings/rust/erase from crates/tool_work/src/checking.rt, sha256 7115801069f82c49e1804cc16cc9d74b8d0af304effb9091718d26ce7e854996.
//! The check of a record that a reader gives.

use crate::kit::alloc::{Allocator, Global};
use crate::kit::Vec;
use crate::proved::text_checker::judge::Judge;
use crate::proved::text_checker::verdict::Verdict;
use crate::proved::text_lines::fault::Fault;
use crate::proved::text_lines::print::put_word;
use crate::proved::text_lines::replies::Replies;
use crate::proved::text_lines::sink::put_all;
use crate::proved::text_lines::sink::Sink;
use crate::proved::text_player::playing::{MOST_READS, READ_BYTES};
use crate::proved::text_player::source::Source;

/// Returns all that the reader gives. It reads by way of `chunk`.
///
/// # Errors
///
/// - `Read`: the reader failed, or was read 2^40 times.
/// - `Memory`: an allocation failed.
pub fn read_whole<R: Source>(
    alloc: Global,
    reader: &mut R,
    chunk: &mut [u8],
) -> Result<Vec<u8>, Fault> {
    let mut bytes = Vec::new(alloc);
    for _reads in 0..MOST_READS {
        let count = match reader.read_once(chunk) {
            Ok(count) => count,
            Err(_) => return Err(Fault::Read),
        };
        if count == 0 {
            return Ok(bytes);
        }
        match bytes.extend_from_slice(&chunk[..count]) {
            Ok(()) => {}
            Err(_) => return Err(Fault::Memory),
        }
    }
    Err(Fault::Read)
}

/// Returns the verdict on all that the reader gives. It judges each line once it was read, and keeps no line.
///
/// # Errors
///
/// - `Read`: the reader failed, or was read 2^40 times.
/// - `Memory`: an allocation failed.
pub fn judge_whole<R: Source>(
    alloc: Global,
    reader: &mut R,
    chunk: &mut [u8],
) -> Result<Verdict, Fault> {
    let mut judge = Judge::new(alloc);
    for _reads in 0..MOST_READS {
        let count = match reader.read_once(chunk) {
            Ok(count) => count,
            Err(_) => return Err(Fault::Read),
        };
        if count == 0 {
            return match judge.verdict() {
                Ok(verdict) => Ok(verdict),
                Err(_) => Err(Fault::Memory),
            };
        }
        match judge.take(&chunk[..count]) {
            Ok(()) => {}
            Err(_) => return Err(Fault::Memory),
        }
    }
    Err(Fault::Read)
}

/// Appends the line of a verdict.
pub fn put_verdict<A: Allocator>(verdict: Verdict, out: &mut Replies<A>) {
    match verdict {
        Verdict::Yes => out.put(b"yes\n"),
        Verdict::No(number, reason) => {
            put_word(b"no ", number, out);
            put_word(b" ", u64::from(reason.number()), out);
            out.put(b"\n");
        }
        Verdict::BadRecord(number) => {
            put_word(b"bad record ", number, out);
            out.put(b"\n");
        }
        Verdict::NoMemory => {}
    }
}

// Returns the status for a verdict.
fn status_of(verdict: Verdict) -> u8 {
    match verdict {
        Verdict::Yes => 0,
        _ => 1,
    }
}

/// Reads a record to its end, and writes its verdict: `yes`, `no LINE REASON` or `bad record LINE`. Returns 0 for `yes`, else 1.
///
/// # Errors
///
/// - `Read`: the reader failed, or was read 2^40 times. Nothing is written.
/// - `Memory`: an allocation failed. Nothing is written.
/// - `Write`: the writer failed or took no byte. A prefix of the line is written.
pub fn check_for<R: Source, W: Sink>(
    alloc: Global,
    reader: &mut R,
    writer: &mut W,
) -> Result<u8, Fault> {
    let Ok(mut line) = Replies::new(alloc) else {
        return Err(Fault::Memory);
    };
    let Ok(mut chunk) = Vec::from_elem(alloc, 0, READ_BYTES) else {
        return Err(Fault::Memory);
    };
    let verdict = judge_whole(alloc, reader, &mut chunk)?;
    put_verdict(verdict, &mut line);
    put_all(writer, line.as_slice())?;
    Ok(status_of(verdict))
}
