// Erased by bindings/rust/erase from crates/service_loop/src/pool_line.rt, sha256 87eeb1dec4566e1e50ab11cb02a085f65731fb810f582211863b9d79e7ded7d9.
//! Lines that choose a pool of a server: `pool NAME`.

use crate::proved::text_lines::words::is_word;

/// The most bytes of the name of a pool.
pub const MOST_NAME: usize = 64;

/// The most bytes of a line that chooses a pool, without its LF.
pub(crate) const MOST_LINE: usize = 5 + MOST_NAME;

// Whether a byte may stand in a name: letters, digits, `-`, `_` and `.`.
fn may_stand(byte: &u8) -> bool {
    byte.is_ascii_alphanumeric() || matches!(*byte, b'-' | b'_' | b'.')
}

/// Whether a pool may have this name: 1 to 64 letters, digits, `-`, `_` and `.`, of which `.` is not the first.
pub fn is_pool_name(name: &[u8]) -> bool {
    match name.first() {
        None | Some(b'.') => false,
        Some(_) => name.len() <= MOST_NAME && name.iter().all(may_stand),
    }
}

/// Whether a line, without its LF, chooses the pool of this name.
pub(crate) fn chooses(name: &str, line: &[u8]) -> bool {
    let front = line.len().min(5);
    is_word(&line[..front], b"pool ") && is_word(&line[front..], name.as_bytes())
}
