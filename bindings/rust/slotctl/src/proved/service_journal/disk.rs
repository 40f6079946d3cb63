// Erased by bindings/rust/erase from crates/service_journal/src/disk.rt, sha256 e271acff19a3a0229668cf86f70caa4d3bfb8918dac4024a711987202baaf4a7.
//! What a journal is written to.

use crate::kit::alloc::{AllocError, Global};
use crate::kit::io;
use crate::kit::io::ErrorKind;
use crate::kit::Vec;
use crate::proved::service_watch::durations::DurationHistogram;

/// Why a call of a disk failed.
#[derive(Clone, Copy, Debug, PartialEq, Eq)]
pub enum DiskFault {
    /// The device failed, or had no room, as it reported.
    Failed(ErrorKind),
    /// An allocation failed.
    NoMemory,
    /// The path names another file by now, or none, or the file has another length than what was written gave it.
    Moved,
}

impl From<AllocError> for DiskFault {
    fn from(_refused: AllocError) -> DiskFault {
        DiskFault::NoMemory
    }
}

impl From<io::Error> for DiskFault {
    fn from(error: io::Error) -> DiskFault {
        match error.kind() {
            ErrorKind::OutOfMemory => DiskFault::NoMemory,
            kind => DiskFault::Failed(kind),
        }
    }
}

/// Bytes that outlast a crash. They are appended to one another, and are durable once they are synced.
///
/// After a call that failed it is known only what a crash may leave. A caller that writes on may then get `Ok` wrongly.
pub trait Disk: Sized {
    /// Returns all bytes.
    fn read(&mut self, alloc: Global) -> Result<Vec<u8>, DiskFault>;

    /// Appends bytes to the others.
    fn append(&mut self, bytes: &[u8]) -> Result<(), DiskFault>;

    /// Waits until all that was written is durable.
    fn sync(&mut self) -> Result<(), DiskFault>;

    /// Cuts off all bytes behind the first `len`.
    fn cut(&mut self, len: usize) -> Result<(), DiskFault>;

    /// Returns whether these bytes could be written beside the others now, as `replace` does first. If not, nothing is left beside.
    fn can_replace(&self, alloc: Global, bytes: &[u8]) -> bool;

    /// Replaces all bytes by these in one step, and waits until they are durable.
    ///
    /// A crash at any moment of the call leaves what it may leave of the old bytes, or all of the new ones (`MayLeaveEither`). So does
    /// one after a call that failed.
    fn replace(&mut self, alloc: Global, bytes: &[u8]) -> Result<(), DiskFault>;

    /// Fails if the bytes are no more where they were written, as those of a file that was deleted, moved or cut short.
    fn look(&self) -> Result<(), DiskFault>;

    /// Returns how many bytes the disk has, for the reports of a server.
    fn size(&self) -> u64;

    /// Returns how often all bytes were replaced, for such reports, or `None` if this is not counted.
    fn replacings(&self) -> Option<u64> {
        None
    }

    /// Returns how long the syncs took, for such reports, or `None` if this is not measured.
    fn sync_times(&self) -> Option<DurationHistogram> {
        None
    }
}
