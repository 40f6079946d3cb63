// Erased by bindings/rust/erase from crates/text_records/src/text.rt, sha256 fa8c6f08d07572f207f95a4b66c09657791e6e6171005da22afd2bf2764030ca.
//! A text that grows.

use crate::kit::alloc::{AllocError, Global};
use crate::kit::itoa::Buffer;
use crate::kit::Vec;

/// A growing buffer of bytes. Contracts see the list.
pub struct Text {
    bytes: Vec<u8>,
}

impl Text {
    /// Makes an empty buffer. This allocates nothing.
    pub fn new(alloc: Global) -> Text {
        Text {
            bytes: Vec::new(alloc),
        }
    }

    /// Returns the bytes.
    pub fn as_slice(&self) -> &[u8] {
        &self.bytes
    }

    /// Returns the bytes, and ends the buffer.
    pub fn into_bytes(self) -> Vec<u8> {
        let Text { bytes } = self;
        bytes
    }

    /// Appends bytes.
    ///
    /// # Errors
    ///
    /// `AllocError`: the allocation failed. The text is then of no use.
    pub fn put(&mut self, bytes: &[u8]) -> Result<(), AllocError> {
        self.bytes.extend_from_slice(bytes)?;
        Ok(())
    }

    /// Appends a line, with its LF.
    ///
    /// # Errors
    ///
    /// Those of `put`.
    pub fn put_row(&mut self, line: &[u8]) -> Result<(), AllocError> {
        self.put(line)?;
        self.put(b"\n")
    }

    /// Appends a number in decimal.
    ///
    /// # Errors
    ///
    /// Those of `put`.
    pub fn put_number(&mut self, number: u64) -> Result<(), AllocError> {
        self.put(Buffer::new().format(number).as_bytes())
    }

    /// Appends a word with its space, and a number in decimal.
    ///
    /// # Errors
    ///
    /// Those of `put`.
    pub fn put_word(&mut self, word: &[u8], number: u64) -> Result<(), AllocError> {
        self.put(word)?;
        self.put_number(number)
    }

    /// Appends an identity and its number, with a colon between them.
    ///
    /// # Errors
    ///
    /// Those of `put`.
    pub fn put_pair(&mut self, pair: (u64, u64)) -> Result<(), AllocError> {
        self.put_number(pair.0)?;
        self.put(b":")?;
        self.put_number(pair.1)
    }
}
