// Erased by bindings/rust/erase from crates/text_lines/src/line_buffer.rt, sha256 6fd2e187f826090561ba256fb94afbacd974ae1f478a965d9c1ca2934252b01f.
//! The line that is being read.

use crate::kit::alloc::Allocator;
use crate::kit::Vec;
use crate::proved::model_asked::bad::Bad;
use crate::proved::model_asked::command::Command;
use crate::proved::model_asked::kind::WorldKind;
use crate::proved::model_steps::refusal::NoMemory;
use crate::proved::text_lines::parse::{parse_line, LINE_MAX};

/// A line that a reader gives byte by byte. Its room of 100 bytes is allocated once.
///
/// Bytes after the 100th are dropped, and the line is then too long.
pub struct LineBuffer<A: Allocator> {
    bytes: Vec<u8, A>,
    too_long: bool,
}

impl<A: Allocator> LineBuffer<A> {
    /// Makes an empty line.
    ///
    /// # Errors
    ///
    /// `NoMemory`: the allocation failed.
    pub fn new(alloc: A) -> Result<LineBuffer<A>, NoMemory> {
        match Vec::with_capacity(alloc, LINE_MAX) {
            Ok(bytes) => Ok(LineBuffer {
                bytes,
                too_long: false,
            }),
            Err(_) => Err(NoMemory),
        }
    }

    /// Appends one byte to the line.
    pub fn push(&mut self, byte: u8) {
        if self.bytes.len() < LINE_MAX {
            self.bytes.push_reserved(byte);
        } else {
            self.too_long = true;
        }
    }

    /// Appends bytes to the line.
    pub fn extend(&mut self, bytes: &[u8]) {
        for byte in bytes {
            self.push(*byte);
        }
    }

    /// Starts the next line.
    pub fn clear(&mut self) {
        self.bytes.clear();
        self.too_long = false;
    }

    /// Whether the line has no byte.
    pub fn is_empty(&self) -> bool {
        self.bytes.is_empty()
    }

    /// Returns the command that the whole line means in this world, as `parse_line` does.
    ///
    /// # Errors
    ///
    /// Those of `parse_line`, in that order.
    pub fn meaning(&self, world: WorldKind) -> Result<Command, Bad> {
        if self.too_long {
            return Err(Bad::TooLong);
        }
        parse_line(&self.bytes, world)
    }
}
