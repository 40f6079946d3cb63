// Erased by bindings/rust/erase from crates/text_records/src/rows.rt, sha256 2cc355a5802e0003f0536df247c10110d7919a68962c4bd08095a4f039383e2c.
//! The lines of a record, one after the other.

use crate::proved::text_lines::words::cut;
use crate::proved::text_records::seals::opened_line;

/// Whether this is what follows the last LF, with nothing in it.
fn is_end(line: &[u8], rest: Option<&[u8]>) -> bool {
    line.is_empty() && rest.is_none()
}

/// Returns the first line of these bytes, without its LF, and the bytes after it, or `None` if there is no line. Of a sealed line the line
/// that it holds is returned.
pub fn next_line(bytes: &[u8]) -> Option<(&[u8], Option<&[u8]>)> {
    let (line, rest) = cut(bytes, b'\n');
    if is_end(line, rest) {
        return None;
    }
    Some((opened_line(line), rest))
}
