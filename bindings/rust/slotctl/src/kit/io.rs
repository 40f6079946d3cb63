//! Readers and writers, in the place of the kit's `std::io`. The standard streams are read and written at once, with no buffer
//! between.

pub use std::io::{Error, ErrorKind, Result, SeekFrom, Write};

use super::Vec;
use std::fs::File;
use std::io::{IsTerminal, Read as _};

/// What is read: as Rust's, but for what takes a list of the kit.
pub trait Read {
    /// `read`: reads some bytes, or none at the end.
    ///
    /// # Errors
    ///
    /// What the system says.
    fn read(&mut self, bytes: &mut [u8]) -> Result<usize>;

    /// `read_exact`: reads as many bytes as there is room for.
    ///
    /// # Errors
    ///
    /// What the system says, or `UnexpectedEof` where there are fewer.
    fn read_exact(&mut self, bytes: &mut [u8]) -> Result<()> {
        let mut at = 0;
        while at < bytes.len() {
            match self.read(&mut bytes[at..]) {
                Ok(0) => return Err(ErrorKind::UnexpectedEof.into()),
                Ok(count) => at += count,
                Err(error) if error.kind() == ErrorKind::Interrupted => {}
                Err(error) => return Err(error),
            }
        }
        Ok(())
    }

    /// `read_to_end`: appends all that is left.
    ///
    /// # Errors
    ///
    /// What the system says, or `OutOfMemory` where an allocation failed.
    fn read_to_end(&mut self, bytes: &mut Vec<u8>) -> Result<usize> {
        let mut chunk = [0u8; 16384];
        let before = bytes.len();
        loop {
            match self.read(&mut chunk) {
                Ok(0) => return Ok(bytes.len() - before),
                Ok(count) => bytes.extend_from_slice(&chunk[..count])?,
                Err(error) if error.kind() == ErrorKind::Interrupted => {}
                Err(error) => return Err(error),
            }
        }
    }
}

/// A standard stream of the process: a handle of its own, or why there is none.
pub struct Standard {
    stream: Result<File>,
    is_terminal: bool,
}

impl Standard {
    /// `is_terminal`: whether a person may look on.
    pub fn is_terminal(&self) -> bool {
        self.is_terminal
    }

    fn file(&self) -> Result<&File> {
        match &self.stream {
            Ok(file) => Ok(file),
            Err(error) => Err(error.kind().into()),
        }
    }

    fn of<T: Owned + IsTerminal>(stream: &T) -> Standard {
        Standard {
            stream: stream.own(),
            is_terminal: stream.is_terminal(),
        }
    }
}

impl Read for Standard {
    fn read(&mut self, bytes: &mut [u8]) -> Result<usize> {
        self.file()?.read(bytes)
    }
}

impl Write for Standard {
    fn write(&mut self, bytes: &[u8]) -> Result<usize> {
        self.file()?.write(bytes)
    }

    fn flush(&mut self) -> Result<()> {
        Ok(())
    }
}

/// `stdin`: the standard input.
pub fn stdin() -> Standard {
    Standard::of(&std::io::stdin())
}

/// `stdout`: the standard output.
pub fn stdout() -> Standard {
    Standard::of(&std::io::stdout())
}

/// `stderr`: the standard error.
pub fn stderr() -> Standard {
    Standard::of(&std::io::stderr())
}

/// What has a handle of the system of which another can be made.
trait Owned {
    fn own(&self) -> Result<File>;
}

#[cfg(unix)]
impl<T: std::os::fd::AsFd> Owned for T {
    fn own(&self) -> Result<File> {
        Ok(self.as_fd().try_clone_to_owned()?.into())
    }
}

#[cfg(windows)]
impl<T: std::os::windows::io::AsHandle> Owned for T {
    fn own(&self) -> Result<File> {
        Ok(self.as_handle().try_clone_to_owned()?.into())
    }
}
