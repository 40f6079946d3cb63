// Erased by bindings/rust/erase from crates/text_player/src/tried.rt, sha256 d0f5c672978ed3d2c76a55ffde03b092d417a9d23ebde179150fc0d50c6d2c5b.
//! Any reader or writer, with counts of its calls.

use crate::kit::io;
use crate::kit::io::{Read, Write};
use crate::proved::text_lines::sink::Sink;
use crate::proved::text_player::source::Source;

/// A reader or writer of std, with counts of its calls and of those that failed.
///
/// A write of some bytes that takes none counts as failed.
pub struct Tried<T> {
    inner: T,
    calls: u128,
    failed: u128,
}

impl<T> Tried<T> {
    /// Makes one of this reader or writer, with both counts 0.
    pub fn new(inner: T) -> Tried<T> {
        Tried {
            inner,
            calls: 0,
            failed: 0,
        }
    }
}

impl<T: Read> Read for Tried<T> {
    fn read(&mut self, buf: &mut [u8]) -> io::Result<usize> {
        self.inner.read(buf)
    }
}

impl<T: Read> Source for Tried<T> {
    fn read_once(&mut self, buf: &mut [u8]) -> io::Result<usize> {
        let outcome = self.inner.read(buf);
        let failed = if outcome.is_err() { 1 } else { 0 };
        self.calls += 1;
        self.failed += failed;
        outcome
    }
}

impl<T: Write> Write for Tried<T> {
    fn write(&mut self, buf: &[u8]) -> io::Result<usize> {
        self.inner.write(buf)
    }

    fn flush(&mut self) -> io::Result<()> {
        self.inner.flush()
    }
}

impl<T: Write> Sink for Tried<T> {
    fn write_once(&mut self, buf: &[u8]) -> io::Result<usize> {
        let outcome = self.inner.write(buf);
        let failed = match &outcome {
            Ok(n) => u128::from(*n == 0 && !buf.is_empty()),
            Err(_) => 1,
        };
        self.calls += 1;
        self.failed += failed;
        outcome
    }
}
