// Erased by bindings/rust/erase from crates/text_records/src/plain_line.rt, sha256 fde161ca624e8bff45880be4defd607b5379ab7a1237dccebc6a6c170ab5a280.
//! Lines in the spelling in which records are written, read without a reader of JSON.

use crate::kit::alloc::{AllocError, Global};
use crate::proved::model_asked::command::Command;
use crate::proved::model_asked::event::Event;
use crate::proved::model_asked::kind::WorldKind;
use crate::proved::text_lines::front::after_front;
use crate::proved::text_lines::quick::quick_command;
use crate::proved::text_lines::words::is_word;
use crate::proved::text_records::header::Version;
use crate::proved::text_records::line::{Line, Row};
use crate::proved::text_records::quick_reply::quick_reported;
use crate::proved::text_records::reply_text::reported_of;
use crate::proved::text_records::reported::Reported;

/// Whether a byte stands for itself in a JSON string.
fn is_plain(byte: u8) -> bool {
    b' ' <= byte && byte <= b'~' && byte != b'"' && byte != b'\\'
}

/// The number of bytes before the first that does not stand for itself.
fn plain_length(bytes: &[u8]) -> usize {
    for (i, byte) in bytes.iter().enumerate() {
        if !is_plain(*byte) {
            return i;
        }
    }
    bytes.len()
}

/// The bytes before the first that does not stand for itself, and the others.
fn split_plain(bytes: &[u8]) -> (&[u8], &[u8]) {
    bytes.split_at(plain_length(bytes))
}

/// The event at the start of a line, and the bytes from its reply on, in one pass. `None` means nothing.
///
/// It is a function of its own, so that what reads a line is short enough to inline in the loop over lines.
#[inline(never)]
fn plain_event(kind: WorldKind, bytes: &[u8]) -> Option<(Event, &[u8])> {
    let text = after_front(bytes, b"{\"command\":\"")?;
    let (command, end) = quick_command(text, kind, b'"')?;
    let Command::Event(event) = command else {
        return None;
    };
    Some((event, after_front(&text[end..], b"\",\"reply\":\"")?))
}

/// The reply at the end of a line, and the view beside it, if each byte of both stands for itself.
fn plain_end(text: &[u8]) -> Option<(&[u8], Option<&[u8]>)> {
    let (reply, rest) = split_plain(text);
    if is_word(rest, b"\"}") {
        return Some((reply, None));
    }
    let (view, rest) = split_plain(after_front(rest, b"\",\"view\":\"")?);
    if !is_word(rest, b"\"}") {
        return None;
    }
    Some((reply, Some(view)))
}

/// What the end of a line reports of the reply, with the view beside it. `None` means nothing.
#[inline(never)]
fn plain_reported(
    alloc: Global,
    version: Version,
    text: &[u8],
) -> Result<Option<Reported>, AllocError> {
    match plain_end(text) {
        Some((reply, view)) => reported_of(alloc, version, reply, view),
        None => Ok(None),
    }
}

/// Reads an event's line that is spelled as records are written.
///
/// Such a line has no space between its parts and its keys in order, and each byte of its texts stands for itself.
/// `None` means nothing: `read_row` then decides.
///
/// # Errors
///
/// `AllocError`: the allocation failed.
#[inline(always)]
pub fn plain_line(
    alloc: Global,
    kind: WorldKind,
    version: Version,
    bytes: &[u8],
) -> Result<Option<Row>, AllocError> {
    let Some((event, text)) = plain_event(kind, bytes) else {
        return Ok(None);
    };
    if let Some(reported) = quick_reported(text) {
        return Ok(Some(Row {
            line: Line { event, reported },
            is_canonical: true,
        }));
    }
    match plain_reported(alloc, version, text)? {
        Some(reported) => Ok(Some(Row {
            line: Line { event, reported },
            is_canonical: false,
        })),
        None => Ok(None),
    }
}
