// Erased by bindings/rust/erase from crates/service_loop/src/stream.rt, sha256 7edcc22d7b227e00d784e08e9018c212cd2ebd5b7db5273fb168ad247f024285.
//! Streams that do not wait.

use crate::kit::io;

/// A stream of bytes both ways that does not wait: where it can give or take none now, it answers `ErrorKind::WouldBlock`.
pub trait Stream: Sized {
    /// One read, as std's `read`.
    fn read_some(&mut self, buf: &mut [u8]) -> io::Result<usize>;

    /// One write, as std's `write`.
    fn write_some(&mut self, buf: &[u8]) -> io::Result<usize>;
}
