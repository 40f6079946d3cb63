// Erased by bindings/rust/erase from crates/service_loop/src/owner_lines.rt, sha256 e43e3bf25a51255428e4914066971c189410904426086a954e0c318ce2648913.
//! The lines of a stream whose clients own their identities, on their way to the service.

use crate::kit::alloc::{AllocError, Global};
use crate::kit::io;
use crate::kit::io::ErrorKind;
use crate::kit::Vec;
use crate::proved::service_loop::buffers::drop_front;
use crate::proved::service_loop::owner_line::put_owned;
use crate::proved::service_loop::stream::Stream;

/// What ends a line.
const LF: u8 = 10;

/// So many bytes of a line are kept. A line that is so long is none that the service knows.
pub const MOST_LINE: usize = 200;

/// So many bytes are read at once.
const CHUNK: usize = 4_096;

/// So many reads are made at most for one that is asked for.
const MOST_READS: usize = 64;

/// The lines of a stream on their way to the service: each goes as `put_owned` says.
pub struct OwnerLines {
    /// The line that is begun.
    begun: Vec<u8>,
    /// What is ready for the service.
    ready: Vec<u8>,
}

impl OwnerLines {
    /// Nothing came.
    pub fn new(alloc: Global) -> OwnerLines {
        OwnerLines {
            begun: Vec::new(alloc),
            ready: Vec::new(alloc),
        }
    }

    // The line that is begun has ended.
    fn end_line(&mut self) -> Result<(), AllocError> {
        put_owned(&self.begun, &mut self.ready)?;
        self.ready.push(LF)?;
        self.begun.clear();
        Ok(())
    }

    // One byte came.
    fn add_byte(&mut self, byte: u8) -> Result<(), AllocError> {
        if byte == LF {
            return self.end_line();
        }
        if self.begun.len() < MOST_LINE {
            self.begun.push(byte)?;
        }
        Ok(())
    }

    /// These bytes came.
    ///
    /// # Errors
    ///
    /// `AllocError`: an allocation failed.
    pub fn add(&mut self, bytes: &[u8]) -> Result<(), AllocError> {
        for byte in bytes {
            self.add_byte(*byte)?;
        }
        Ok(())
    }

    // Gives what is ready, as far as there is room for it.
    fn give(&mut self, buf: &mut [u8]) -> usize {
        let count = self.ready.len().min(buf.len());
        buf[..count].copy_from_slice(&self.ready[..count]);
        drop_front(&mut self.ready, count);
        count
    }

    // Reads until so many bytes are ready, or the stream has no more for now. Returns what came of the last read.
    fn fill<S: Stream>(
        &mut self,
        stream: &mut S,
        most: usize,
    ) -> Result<io::Result<usize>, AllocError> {
        let mut chunk = [0u8; CHUNK];
        let mut came = Ok(0);
        for _ in 0..MOST_READS {
            if most <= self.ready.len() {
                break;
            }
            came = stream.read_some(&mut chunk);
            let Ok(count) = came else {
                break;
            };
            self.add(&chunk[..count])?;
            if count < CHUNK {
                break;
            }
        }
        Ok(came)
    }

    /// One read, as std's `read`, of the lines as they go to the service. Where none is ready, or the stream may have more than it was read for so far, it is
    /// `ErrorKind::Interrupted`: what is given is less than is asked for only where the stream has no more for now, as the loop takes it.
    ///
    /// # Errors
    ///
    /// Those of the stream, and `ErrorKind::OutOfMemory`.
    pub fn read<S: Stream>(&mut self, stream: &mut S, buf: &mut [u8]) -> io::Result<usize> {
        let Ok(came) = self.fill(stream, buf.len()) else {
            return Err(io::Error::from(ErrorKind::OutOfMemory));
        };
        match came {
            Ok(CHUNK) if self.ready.len() < buf.len() => {
                Err(io::Error::from(ErrorKind::Interrupted))
            }
            _ if !self.ready.is_empty() => Ok(self.give(buf)),
            Ok(0) => Ok(0),
            Ok(_) => Err(io::Error::from(ErrorKind::Interrupted)),
            Err(error) => Err(error),
        }
    }
}
