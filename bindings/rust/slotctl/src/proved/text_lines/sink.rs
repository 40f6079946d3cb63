// Erased by bindings/rust/erase from crates/text_lines/src/sink.rt, sha256 37efefce730b46da2f33c4d81e06eff9a0973499651d5281358b745a8c0c0855.
//! Writers whose calls are counted.

use crate::kit::io;
use crate::kit::io::Write;
use crate::proved::text_lines::fault::Fault;

/// A writer with ghost counts of its calls and of those that failed.
///
/// A write that takes no byte has failed.
pub trait Sink: Sized + Write {
    /// Makes one write, as `write` of std does.
    ///
    /// # Errors
    ///
    /// Those of `write`. Nothing was then written.
    fn write_once(&mut self, buf: &[u8]) -> io::Result<usize>;
}

/// Writes a whole text, in at most as many calls as it has bytes.
///
/// # Errors
///
/// `Write`: a write failed or took no byte. A prefix of the text is written.
pub fn put_all<W: Sink>(writer: &mut W, text: &[u8]) -> Result<(), Fault> {
    let mut at = 0;
    while at < text.len() {
        match writer.write_once(&text[at..]) {
            Ok(0) => return Err(Fault::Write),
            Ok(n) => at += n,
            Err(_) => return Err(Fault::Write),
        }
    }
    Ok(())
}
