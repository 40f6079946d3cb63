// Erased by bindings/rust/erase from crates/text_records/src/record_line.rt, sha256 d7072555efd353694af93e38a0dc0e2d4e2c6fd2a2b4779aa8c4bf344a01438f.
//! From the bytes of a record's line to its contents.

use crate::kit::alloc::{AllocError, Global};
use crate::kit::serde_json::Value;
use crate::proved::model_asked::command::Command;
use crate::proved::model_asked::event::Event;
use crate::proved::model_asked::kind::WorldKind;
use crate::proved::text_lines::parse::parse_line;
use crate::proved::text_records::header::{Header, Version};
use crate::proved::text_records::line::{Line, Row};
use crate::proved::text_records::object::{header, texts};
use crate::proved::text_records::plain_line::plain_line;
use crate::proved::text_records::reply_text::reported_of;

/// The most bytes of a record's line, without its LF.
pub const LINE_MOST: usize = 8192;

/// The JSON value of a text, or `None` if it is no JSON.
fn value_of(alloc: Global, bytes: &[u8]) -> Result<Option<Value>, AllocError> {
    match Value::from_slice(alloc, bytes) {
        Ok(value) => Ok(Some(value)),
        Err(error) if error.is_memory() => Err(AllocError),
        Err(_) => Ok(None),
    }
}

/// The event that a command's line asks for, in a world of this kind.
fn event_of(text: &[u8], kind: WorldKind) -> Option<Event> {
    match parse_line(text, kind) {
        Ok(Command::Event(event)) => Some(event),
        Ok(Command::Owner(_)) => None,
        Ok(Command::Quit) => None,
        Err(_) => None,
    }
}

/// The line that a value is, in a world of this kind and a record of this version.
fn line_of(
    alloc: Global,
    kind: WorldKind,
    version: Version,
    value: &Value,
) -> Result<Option<Line>, AllocError> {
    let Some(texts) = texts(value) else {
        return Ok(None);
    };
    let Some(event) = event_of(texts.command, kind) else {
        return Ok(None);
    };
    match reported_of(alloc, version, texts.reply, texts.view)? {
        Some(reported) => Ok(Some(Line { event, reported })),
        None => Ok(None),
    }
}

/// Reads a line as `read_line` does, by a JSON reader.
fn read_json_line(
    alloc: Global,
    kind: WorldKind,
    version: Version,
    bytes: &[u8],
) -> Result<Option<Line>, AllocError> {
    let Some(value) = value_of(alloc, bytes)? else {
        return Ok(None);
    };
    line_of(alloc, kind, version, &value)
}

/// Reads a line as `read_line` does, and tells whether its bytes are those that `put_line` writes of it.
///
/// # Errors
///
/// `AllocError`: the allocation failed.
pub fn read_row(
    alloc: Global,
    kind: WorldKind,
    version: Version,
    bytes: &[u8],
) -> Result<Option<Row>, AllocError> {
    if LINE_MOST < bytes.len() {
        return Ok(None);
    }
    if let Some(row) = plain_line(alloc, kind, version, bytes)? {
        return Ok(Some(row));
    }
    match read_json_line(alloc, kind, version, bytes)? {
        Some(line) => Ok(Some(Row {
            line,
            is_canonical: false,
        })),
        None => Ok(None),
    }
}

/// Reads an event's line, without its LF, of a record of this world and version. Returns `None` if it is no event's
/// line.
///
/// A line has at most 8,192 bytes.
///
/// # Errors
///
/// `AllocError`: the allocation failed.
pub fn read_line(
    alloc: Global,
    kind: WorldKind,
    version: Version,
    bytes: &[u8],
) -> Result<Option<Line>, AllocError> {
    match read_row(alloc, kind, version, bytes)? {
        Some(row) => {
            let Row {
                line,
                is_canonical: _,
            } = row;
            Ok(Some(line))
        }
        None => Ok(None),
    }
}

/// Reads the first line of a record, without its LF. Returns `None` if it is no header.
///
/// A line has at most 8,192 bytes.
///
/// # Errors
///
/// `AllocError`: the allocation failed.
pub fn read_header(alloc: Global, bytes: &[u8]) -> Result<Option<Header>, AllocError> {
    if LINE_MOST < bytes.len() {
        return Ok(None);
    }
    let Some(value) = value_of(alloc, bytes)? else {
        return Ok(None);
    };
    Ok(header(&value))
}
