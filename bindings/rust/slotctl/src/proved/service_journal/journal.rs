// Erased by bindings/rust/erase from crates/service_journal/src/journal.rt, sha256 004e8fead7713a4df85179c9ab7d31888619d14e445d4861540d695450079a39.
//! The journal of a write-ahead hall, on a disk.

use crate::kit::alloc::Global;
use crate::proved::model_asked::config::Config;
use crate::proved::service_hall::compactor::Compactor;
use crate::proved::service_hall::hall::Hall;
use crate::proved::service_journal::disk::{Disk, DiskFault};
use crate::proved::service_journal::opening::{recovered, OpenFault};
use crate::proved::service_journal::record::record_of;
use crate::proved::service_journal::write_ahead::WriteAhead;
use crate::proved::text_lines::laws::law_of_lines;
use crate::proved::text_lines::replies::Replies;
use crate::proved::text_player::as_record::print_header;

/// Why a call of a journal failed. The journal has ended: it never writes again.
#[derive(Clone, Copy, Debug, PartialEq, Eq)]
pub enum JournalFault {
    /// The disk failed in this call. A prefix of what it was to write may stand there.
    Disk(DiskFault),
    /// The journal had ended before this call.
    Ended,
}

/// A disk with the record of what a write-ahead hall has committed.
///
/// After a call of the disk that failed the journal has ended, and never writes again.
pub struct Journal<D: Disk> {
    pub(crate) disk: D,
    pub(crate) ended: bool,
}

/// Ends a journal by a fault of its disk.
fn end(ended: &mut bool, fault: DiskFault) -> JournalFault {
    *ended = true;
    JournalFault::Disk(fault)
}

impl<D: Disk> Journal<D> {
    /// Appends bytes to the disk and syncs them.
    fn write(&mut self, bytes: &[u8]) -> Result<(), DiskFault> {
        self.disk.append(bytes)?;
        self.disk.sync()?;
        Ok(())
    }

    /// Appends the pending lines to the disk and syncs them. Then all events of the write-ahead hall are committed.
    ///
    /// The caller sends no reply to an event before this has returned `Ok`.
    ///
    /// # Errors
    ///
    /// An error leaves the write-ahead hall as it was, and the journal has ended. The first that applies is returned:
    ///
    /// - `Ended`: the journal had ended before. Nothing changes.
    /// - `Disk`: the disk failed. A prefix of the pending lines may stand there.
    pub fn commit(&mut self, write_ahead: &mut WriteAhead) -> Result<(), JournalFault> {
        law_of_lines();
        if self.ended {
            return Err(JournalFault::Ended);
        }
        match self.write(write_ahead.waiting()) {
            Ok(()) => {
                write_ahead.mark_committed();
                Ok(())
            }
            Err(fault) => Err(end(&mut self.ended, fault)),
        }
    }
}

/// Puts a compaction off, unless it was kept.
fn put_off_unless(kept: bool, compactor: &mut Compactor, hall: &Hall) {
    if !kept {
        compactor.put_off(hall);
    }
}

impl<D: Disk> Journal<D> {
    /// Replaces the hall by one that was compacted of it, and the bytes of the disk by its record, in one step. Then all events are committed.
    ///
    /// Returns `false`, and changes nothing, if an allocation failed or the disk has no room for the new record beside the old one.
    ///
    /// # Errors
    ///
    /// An error leaves the write-ahead hall as it was, and the journal has ended. The first that applies is returned:
    ///
    /// - `Ended`: the journal had ended before. Nothing changes.
    /// - `Disk`: the disk failed while it replaced its bytes. It has the old record or the new one.
    pub fn compact(
        &mut self,
        alloc: Global,
        write_ahead: &mut WriteAhead,
        hall: Hall,
    ) -> Result<bool, JournalFault> {
        law_of_lines();
        let _ = write_ahead.waiting();
        if self.ended {
            return Err(JournalFault::Ended);
        }
        let Ok(record) = record_of(alloc, &hall) else {
            return Ok(false);
        };
        if !self.disk.can_replace(alloc, &record) {
            return Ok(false);
        }
        match self.disk.replace(alloc, &record) {
            Ok(()) => {
                write_ahead.replace_hall(hall);
                Ok(true)
            }
            Err(fault) => Err(end(&mut self.ended, fault)),
        }
    }

    // Compacts the write-ahead hall by `compact`, if that makes the history shorter. It stands apart from the question whether that is due: its
    // room for a hall is cleared whenever it is called.
    #[inline(never)]
    fn compact_long(
        &mut self,
        alloc: Global,
        compactor: &mut Compactor,
        write_ahead: &mut WriteAhead,
    ) -> Result<(), JournalFault> {
        let Some(hall) = compactor.compacted(alloc, write_ahead.hall()) else {
            return Ok(());
        };
        let done = self.compact(alloc, write_ahead, hall)?;
        put_off_unless(done, compactor, write_ahead.hall());
        Ok(())
    }

    /// Compacts the write-ahead hall by `compact`, if that is due and makes the history shorter.
    ///
    /// If the new record could not be written beside the old one, the hall stays as it is, and the compaction is put off.
    ///
    /// # Errors
    ///
    /// Those of `compact`, if a compaction is due. An error leaves the write-ahead hall as it was.
    pub fn compact_when_due(
        &mut self,
        alloc: Global,
        compactor: &mut Compactor,
        write_ahead: &mut WriteAhead,
    ) -> Result<(), JournalFault> {
        if !compactor.is_due(write_ahead.hall()) {
            return Ok(());
        }
        self.compact_long(alloc, compactor, write_ahead)
    }
}

/// A journal that was opened, with the write-ahead hall of its record.
pub struct Opened<D: Disk> {
    /// The journal.
    pub journal: Journal<D>,
    /// The write-ahead hall.
    pub write_ahead: WriteAhead,
}

/// A disk whose journal was not opened.
pub struct NotOpened<D: Disk> {
    /// Why it was not.
    pub fault: OpenFault,
    /// The disk.
    pub disk: D,
}

/// Returns what a record with so many whole bytes lacks: its header if there are none, and else nothing.
fn missing(header: &[u8], whole: usize) -> &[u8] {
    if whole == 0 {
        return header;
    }
    &header[..0]
}

/// Cuts a disk of `total` bytes behind the first `whole` ones, appends what is missing, and syncs.
///
/// If a call of the disk fails, the first `whole` bytes stand there still.
fn mend<D: Disk>(
    disk: &mut D,
    total: usize,
    whole: usize,
    missing: &[u8],
) -> Result<(), DiskFault> {
    if whole < total {
        disk.cut(whole)?;
    }
    disk.append(missing)?;
    disk.sync()?;
    Ok(())
}

/// Mends the record on a disk, and returns the write-ahead hall of it (`Journal::open`).
fn restored<D: Disk>(alloc: Global, disk: &mut D, config: Config) -> Result<WriteAhead, OpenFault> {
    law_of_lines();
    let bytes = disk.read(alloc)?;
    let mut header = Replies::new(alloc)?;
    print_header(config, &mut header);
    let (hall, whole) = recovered(alloc, config, header.as_slice(), &bytes)?;
    let write_ahead = WriteAhead::new(alloc, hall)?;
    mend(disk, bytes.len(), whole, missing(header.as_slice(), whole))?;
    Ok(write_ahead)
}

impl<D: Disk> Journal<D> {
    /// Opens the journal on a disk, and returns it with the write-ahead hall of its record.
    ///
    /// A disk with a part of the header, or with no byte, gets the header, and its hall has no event. Else a last line without LF, which
    /// a crash has torn, is cut off.
    ///
    /// # Errors
    ///
    /// The disk is handed back. It is as it was, unless a call of it failed while it was mended: then all whole lines stand there still.
    ///
    /// - `Disk`: a call of the disk failed, when it was read or mended.
    /// - `NoMemory`: an allocation failed.
    /// - `Judged`: `check` returns something else than `Yes` of the whole lines.
    /// - `OtherConfig`: they are a record of a run, of another config or of another version.
    /// - `NoNames`: the config's world gives no names.
    /// - `OtherLine`: they are a record of this config, with a line that no hall writes.
    pub fn open(alloc: Global, disk: D, config: Config) -> Result<Opened<D>, NotOpened<D>> {
        let mut disk = disk;
        match restored(alloc, &mut disk, config) {
            Ok(write_ahead) => Ok(Opened {
                journal: Journal { disk, ended: false },
                write_ahead,
            }),
            Err(fault) => Err(NotOpened { fault, disk }),
        }
    }

    /// Has the disk look whether its bytes are still where they were written.
    ///
    /// # Errors
    ///
    /// After an error the journal has ended. The first that applies is returned:
    ///
    /// - `Ended`: the journal had ended before. Nothing changes.
    /// - `Disk`: the bytes are no more there, or the disk failed.
    pub fn look(&mut self) -> Result<(), JournalFault> {
        if self.ended {
            return Err(JournalFault::Ended);
        }
        match self.disk.look() {
            Ok(()) => Ok(()),
            Err(fault) => Err(end(&mut self.ended, fault)),
        }
    }

    /// Returns the disk.
    pub fn disk(&self) -> &D {
        &self.disk
    }
}
