// Erased by bindings/rust/erase from crates/text_records/src/line.rt, sha256 0b3d0ea699a910414570aeee4b287a73398ee43f8e31b35c690ebba079c90d3d.
//! A line of a record.

use crate::proved::model_asked::event::Event;
use crate::proved::text_records::reported::Reported;

/// A line of a record: an event, and what the record reports of its reply.
#[derive(Debug)]
pub struct Line {
    /// The event.
    pub event: Event,
    /// What the record reports of its reply.
    pub reported: Reported,
}

/// A line as it was read, and what is known of the bytes that were read.
#[derive(Debug)]
pub struct Row {
    /// The line.
    pub line: Line,
    /// Whether the bytes are those that `put_line` writes of the line, so that they may be copied. If not, nothing is
    /// known.
    pub is_canonical: bool,
}
