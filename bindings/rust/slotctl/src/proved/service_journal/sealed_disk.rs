// Erased by bindings/rust/erase from crates/service_journal/src/sealed_disk.rt, sha256 7ce498bc77ec47b46e577a4172569d899c235f0f5bbb3e9ad4baafcd2f0521d1.
//! A disk whose lines stand beside their checksums.

use crate::kit::alloc::Global;
use crate::kit::io::ErrorKind;
use crate::kit::Vec;
use crate::proved::service_journal::disk::{Disk, DiskFault};
use crate::proved::service_journal::journal::NotOpened;
use crate::proved::service_journal::opening::{whole_length, OpenFault};
use crate::proved::service_watch::durations::DurationHistogram;
use crate::proved::text_checker::verdict::Verdict;
use crate::proved::text_lines::laws::law_of_lines;
use crate::proved::text_records::laws::law_of_seals;
use crate::proved::text_records::seals::{opened_line, put_lines, LineForm};
use crate::proved::text_records::text::Text;

/// A disk over another, on which each line stands beside its checksum (`text_records::seals`).
///
/// What is read of it are the lines alone. A line of the other disk that has no checksum is read as it is; one with a wrong checksum too, and
/// that is no line of a record. Only whole lines are appended.
pub struct SealedDisk<D: Disk> {
    alloc: Global,
    disk: D,
    /// Whether a part of a line may stand at the end, since a write has failed.
    torn: bool,
}

/// What a line of a journal may begin with: a sealed one, and the header and an event of version 2.
const FRONTS: [&[u8]; 3] = [
    b"{\"crc32c\":\"",
    b"{\"format\":\"slot-record\"",
    b"{\"command\":\"",
];

/// Whether some bytes agree with a text, as far as both go.
fn agree(bytes: &[u8], front: &[u8]) -> bool {
    let both = bytes.len().min(front.len());
    bytes[..both] == front[..both]
}

/// Whether a crash may have left these bytes behind the last LF. A whole sealed line with one byte more is one that lost its LF.
fn may_be_torn(tail: &[u8]) -> bool {
    let Some((_, line)) = tail.split_last() else {
        return true;
    };
    let begins = agree(tail, FRONTS[0]) || agree(tail, FRONTS[1]) || agree(tail, FRONTS[2]);
    begins && !tail.contains(&0) && opened_line(line).len() == line.len()
}

/// What is wrong where what stands behind these whole lines is no part of a line.
fn fault_behind(whole: &[u8]) -> OpenFault {
    if whole.is_empty() {
        return OpenFault::Judged(Verdict::BadRecord(1));
    }
    let mut number = 1u64;
    for byte in whole {
        if *byte == b'\n' {
            number = number.saturating_add(1);
        }
    }
    OpenFault::OtherLine(number)
}

/// Cuts a torn line off a disk, and waits until what is left is durable.
fn cut_torn<D: Disk>(alloc: Global, disk: &mut D) -> Result<(), OpenFault> {
    law_of_lines();
    let bytes = disk.read(alloc)?;
    let whole = whole_length(&bytes);
    if !may_be_torn(&bytes[whole..]) {
        return Err(fault_behind(&bytes[..whole]));
    }
    if whole < bytes.len() {
        disk.cut(whole)?;
    }
    disk.sync()?;
    Ok(())
}

/// These whole lines, sealed.
fn sealed(alloc: Global, lines: &[u8]) -> Result<Text, DiskFault> {
    let mut text = Text::new(alloc);
    let rest = put_lines(LineForm::Sealed, lines, &mut text)?;
    if rest.is_empty() {
        return Ok(text);
    }
    Err(DiskFault::Failed(ErrorKind::InvalidInput))
}

impl<D: Disk> SealedDisk<D> {
    /// Makes such a disk of one with lines, sealed or not. What a crash has left of a last line is cut off.
    ///
    /// # Errors
    ///
    /// The disk is handed back, with all whole lines on it.
    ///
    /// - `Disk`: a call of the disk failed.
    /// - `Judged`: there is no LF, and the bytes are no part of a first line.
    /// - `OtherLine`: what stands behind the last LF is no part of a line.
    pub fn open(alloc: Global, disk: D) -> Result<SealedDisk<D>, NotOpened<D>> {
        law_of_lines();
        let mut disk = disk;
        match cut_torn(alloc, &mut disk) {
            Ok(()) => Ok(SealedDisk {
                alloc,
                disk,
                torn: false,
            }),
            Err(fault) => Err(NotOpened { fault, disk }),
        }
    }
}

impl<D: Disk> Disk for SealedDisk<D> {
    /// Returns the lines, without their checksums.
    fn read(&mut self, alloc: Global) -> Result<Vec<u8>, DiskFault> {
        let bytes = self.disk.read(alloc)?;
        let mut text = Text::new(alloc);
        put_lines(LineForm::Plain, &bytes, &mut text)?;
        Ok(text.into_bytes())
    }

    /// Appends these whole lines, each beside its checksum. Fails where a call has failed before, or where a line has no LF.
    fn append(&mut self, bytes: &[u8]) -> Result<(), DiskFault> {
        law_of_seals();
        if self.torn {
            return Err(DiskFault::Failed(ErrorKind::Other));
        }
        let text = sealed(self.alloc, bytes)?;
        self.torn = true;
        match self.disk.append(text.as_slice()) {
            Ok(()) => {
                self.torn = false;
                Ok(())
            }
            Err(fault) => Err(fault),
        }
    }

    fn sync(&mut self) -> Result<(), DiskFault> {
        self.disk.sync()
    }

    /// Fails: only what a crash has torn is ever cut off, which `open` does.
    fn cut(&mut self, _len: usize) -> Result<(), DiskFault> {
        Err(DiskFault::Failed(ErrorKind::Unsupported))
    }

    fn can_replace(&self, alloc: Global, bytes: &[u8]) -> bool {
        match sealed(alloc, bytes) {
            Ok(text) => self.disk.can_replace(alloc, text.as_slice()),
            Err(_) => false,
        }
    }

    fn replace(&mut self, alloc: Global, bytes: &[u8]) -> Result<(), DiskFault> {
        law_of_seals();
        let text = sealed(alloc, bytes)?;
        self.disk.replace(alloc, text.as_slice())
    }

    fn look(&self) -> Result<(), DiskFault> {
        self.disk.look()
    }

    fn size(&self) -> u64 {
        self.disk.size()
    }

    fn replacings(&self) -> Option<u64> {
        self.disk.replacings()
    }

    fn sync_times(&self) -> Option<DurationHistogram> {
        self.disk.sync_times()
    }
}
