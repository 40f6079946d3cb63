// Erased by bindings/rust/erase from crates/text_checker/src/record.rt, sha256 ca2a9de8007bea3888626ad79ee8beecde335ee486ec48234c7a4027d22f7f69.
//! The verdict on a record.

use crate::kit::alloc::{AllocError, Global};
use crate::proved::text_checker::checker::Checker;
use crate::proved::text_checker::gather::{Gather, Nothing};
use crate::proved::text_checker::verdict::Verdict;
use crate::proved::text_records::header::Header;
use crate::proved::text_records::line::Row;
use crate::proved::text_records::record_line::{read_header, read_row};
use crate::proved::text_records::rows::next_line;

/// The number of the first line that is one too many: a header and a million lines precede it.
pub const LINES_END: u64 = 1_000_002;

/// The number of bytes in which LFs are counted together: few enough for 8 bits.
const PART: usize = 240;

/// The number of LFs in a part. It has no branch for each byte, so that many are tested at once.
///
/// Not proved: the count, which is a hint for an allocation alone.
#[inline(always)]
fn line_ends(part: &[u8]) -> u8 {
    let mut count = 0u8;
    for byte in part {
        count = count.wrapping_add(u8::from(*byte == b'\n'));
    }
    count
}

/// Returns the number of lines to allocate room for: those of a record, at most a million.
///
/// Not proved: this number. `check` is proved for every room.
pub fn room_for(rows: Option<&[u8]>) -> usize {
    let Some(bytes) = rows else {
        return 0;
    };
    let mut lines: usize = 1;
    for part in bytes.chunks(PART) {
        lines = lines.saturating_add(usize::from(line_ends(part)));
    }
    lines.min(1_000_000)
}

/// Returns the header of a record and the bytes of its other lines, or `None` if the first line is no header.
///
/// # Errors
///
/// `AllocError`: the allocation failed.
pub fn opened(alloc: Global, bytes: &[u8]) -> Result<Option<(Header, Option<&[u8]>)>, AllocError> {
    let Some((head, rows)) = next_line(bytes) else {
        return Ok(None);
    };
    match read_header(alloc, head)? {
        Some(header) => Ok(Some((header, rows))),
        None => Ok(None),
    }
}

/// Takes one more event line of a record, without its LF. Returns the line if it can follow those before it, or else
/// the verdict.
#[inline(always)]
pub(crate) fn taken(
    alloc: Global,
    header: Header,
    number: u64,
    bytes: &[u8],
    checker: &mut Checker,
) -> Result<Result<Row, Verdict>, AllocError> {
    if LINES_END <= number {
        return Ok(Err(Verdict::BadRecord(number)));
    }
    let Some(row) = read_row(alloc, header.config.world, header.version, bytes)? else {
        return Ok(Err(Verdict::BadRecord(number)));
    };
    if let Some(reason) = checker.judge(&row.line)? {
        return Ok(Err(Verdict::No(number, reason)));
    }
    Ok(Ok(row))
}

/// Returns the verdict on the event lines of a record with this header.
///
/// Each line up to the first that cannot follow those before it is added to `gathered`.
///
/// # Errors
///
/// `AllocError`: the allocation failed.
pub fn judge_rows<G: Gather>(
    alloc: Global,
    header: Header,
    rows: Option<&[u8]>,
    gathered: &mut G,
) -> Result<Verdict, AllocError> {
    let mut checker = Checker::new(alloc, header.config, room_for(rows))?;
    let mut number: u64 = 2;
    let mut left = rows;
    while let Some(bytes) = left {
        let Some((line, rest)) = next_line(bytes) else {
            break;
        };
        let row = match taken(alloc, header, number, line, &mut checker)? {
            Ok(row) => row,
            Err(verdict) => return Ok(verdict),
        };
        gathered.take(&row, line)?;
        number += 1;
        left = rest;
    }
    Ok(Verdict::Yes)
}

/// The verdict on a record.
fn judge_record(alloc: Global, bytes: &[u8]) -> Result<Verdict, AllocError> {
    match opened(alloc, bytes)? {
        Some((header, rows)) => judge_rows(alloc, header, rows, &mut Nothing),
        None => Ok(Verdict::BadRecord(1)),
    }
}

/// Returns the verdict on a record: `Yes` if it is one of a run of the objects, or else its first line at fault.
///
/// The verdict is `NoMemory` if an allocation failed. It then means nothing of the record.
pub fn check(alloc: Global, bytes: &[u8]) -> Verdict {
    match judge_record(alloc, bytes) {
        Ok(said) => said,
        Err(_) => Verdict::NoMemory,
    }
}
