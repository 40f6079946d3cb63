// Erased by bindings/rust/erase from crates/text_lines/src/replies.rt, sha256 66e6b2719f7f08325d83627be89537986859c9e1dd19a0d17668a091885ed7c6.
//! A buffer of replies that are not written yet.

use crate::kit::alloc::Allocator;
use crate::kit::Vec;
use crate::proved::model_steps::refusal::NoMemory;
use crate::proved::text_lines::fault::Fault;
use crate::proved::text_lines::sink::{put_all, Sink};

/// The most bytes that are held before they are written.
pub const HELD_REPLIES: usize = 65_536;

/// A buffer of bytes to be written. Its 65,536 bytes are allocated once.
pub struct Replies<A: Allocator> {
    bytes: Vec<u8, A>,
    used: usize,
}

impl<A: Allocator> Replies<A> {
    /// Makes an empty buffer.
    ///
    /// # Errors
    ///
    /// `NoMemory`: the allocation failed.
    pub fn new(alloc: A) -> Result<Replies<A>, NoMemory> {
        match Vec::from_elem(alloc, 0, HELD_REPLIES) {
            Ok(bytes) => Ok(Replies { bytes, used: 0 }),
            Err(_) => Err(NoMemory),
        }
    }

    /// Returns the number of bytes in the buffer: at most `HELD_REPLIES`.
    pub fn len(&self) -> usize {
        self.used
    }

    /// Returns the bytes in the buffer.
    pub fn as_slice(&self) -> &[u8] {
        &self.bytes[..self.used]
    }

    /// Appends bytes, for which there is room.
    #[inline(always)]
    pub fn put(&mut self, text: &[u8]) {
        let end = self.used + text.len();
        self.bytes[self.used..end].copy_from_slice(text);
        self.used = end;
    }

    /// Writes the bytes in the buffer, and empties it.
    ///
    /// # Errors
    ///
    /// `Write`: a write failed or took no byte. A prefix of the bytes is written.
    pub fn send<W: Sink>(&mut self, writer: &mut W) -> Result<(), Fault> {
        put_all(writer, self.as_slice())?;
        self.clear();
        Ok(())
    }

    /// Makes room for `room` bytes: if there is too little, it writes the bytes in the buffer, as `send` does.
    ///
    /// # Errors
    ///
    /// `Write`: a write failed or took no byte. A prefix of the bytes is written.
    pub fn make_room<W: Sink>(&mut self, room: usize, writer: &mut W) -> Result<(), Fault> {
        if self.len() <= HELD_REPLIES - room {
            return Ok(());
        }
        self.send(writer)
    }

    /// Empties the buffer.
    pub fn clear(&mut self) {
        self.used = 0;
    }
}
