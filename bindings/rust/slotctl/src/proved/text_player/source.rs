// Erased by bindings/rust/erase from crates/text_player/src/source.rt, sha256 770b1db0ea5c6831f0d6c4a51f7c9b820f3b860a0f8618df6fa1d534374c9cf0.
//! Readers that count their calls.

use crate::kit::io;
use crate::kit::io::Read;

/// A reader that counts its calls, and those that failed. Contracts alone see the counts.
pub trait Source: Sized + Read {
    /// Makes one read, as std's `read` does.
    ///
    /// # Errors
    ///
    /// Those of the reader's `read`.
    fn read_once(&mut self, buf: &mut [u8]) -> io::Result<usize>;
}
