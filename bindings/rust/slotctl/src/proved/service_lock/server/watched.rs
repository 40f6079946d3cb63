// Erased by bindings/rust/erase from crates/service_lock/src/server/watched.rt, sha256 c42adcb7f1f850daf074bf3d70db48a4006ff2a684e5387e04f20f86ded65a5c.
//! Readers and writers that call a gate.

use crate::kit::io;
use crate::kit::io::{Read, Write};
use crate::proved::service_lock::server::gate::Gate;
use crate::proved::text_lines::sink::Sink;
use crate::proved::text_player::source::Source;

/// The byte that ends a line.
const LF: u8 = 10;

/// A reader or a writer of a connection that calls a gate for each line that it has read or written whole.
///
/// Not proved: the calls of the gate, which no clause names. Its bytes are those of the inner reader or writer.
pub struct Watched<'a, R, G, T> {
    rt: &'a R,
    gate: &'a G,
    connection: u64,
    inner: T,
    begun: bool,
}

impl<'a, R, G: Gate<R>, T> Watched<'a, R, G, T> {
    /// Wraps a reader or a writer of a connection.
    pub fn new(rt: &'a R, gate: &'a G, connection: u64, inner: T) -> Watched<'a, R, G, T> {
        Watched {
            rt,
            gate,
            connection,
            inner,
            begun: false,
        }
    }

    // Calls the gate for each line that ends in these bytes. Only tested (`server_tests`).
    fn tell_read(&self, bytes: &[u8]) {
        for byte in bytes {
            if *byte == LF {
                self.gate.read(self.rt, self.connection);
            }
        }
    }

    // Calls the gate for the lines that these bytes complete. No bytes are the end, which completes a line that has begun.
    fn has_read(&mut self, bytes: &[u8]) {
        match bytes.last() {
            Some(last) => {
                self.tell_read(bytes);
                self.begun = *last != LF;
            }
            None if self.begun => {
                self.gate.read(self.rt, self.connection);
                self.begun = false;
            }
            None => {}
        }
    }

    // Calls the gate for each reply that ends in these bytes. Only tested (`server_tests`).
    fn tell_written(&self, bytes: &[u8]) {
        for byte in bytes {
            if *byte == LF {
                self.gate.answered(self.rt, self.connection);
            }
        }
    }
}

impl<'a, R, G: Gate<R>, T: Source> Read for Watched<'a, R, G, T> {
    fn read(&mut self, buf: &mut [u8]) -> io::Result<usize> {
        self.inner.read(buf)
    }
}

impl<'a, R, G: Gate<R>, T: Source> Source for Watched<'a, R, G, T> {
    fn read_once(&mut self, buf: &mut [u8]) -> io::Result<usize> {
        let count = self.inner.read_once(buf)?;
        self.has_read(&buf[..count]);
        Ok(count)
    }
}

impl<'a, R, G: Gate<R>, T: Sink> Write for Watched<'a, R, G, T> {
    fn write(&mut self, buf: &[u8]) -> io::Result<usize> {
        self.inner.write(buf)
    }

    fn flush(&mut self) -> io::Result<()> {
        self.inner.flush()
    }
}

impl<'a, R, G: Gate<R>, T: Sink> Sink for Watched<'a, R, G, T> {
    fn write_once(&mut self, buf: &[u8]) -> io::Result<usize> {
        let count = self.inner.write_once(buf)?;
        self.tell_written(&buf[..count]);
        Ok(count)
    }
}
