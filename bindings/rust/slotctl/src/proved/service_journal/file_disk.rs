// Erased by bindings/rust/erase from crates/service_journal/src/file_disk.rt, sha256 a94c6d635d0e01c5fcb13f2730316a9df223757f894de677c28f1701443eeabf.
//! A file of the system as a disk.

use crate::kit::alloc::AllocGlobal;
use crate::kit::alloc::Global;
use crate::kit::format;
use crate::kit::fs::{File, Metadata, TryLockError};
use crate::kit::io::{ErrorKind, Read, SeekFrom, Write};
use crate::kit::rt::{Clock, Files};
use crate::kit::time::Instant;
use crate::kit::String;
use crate::kit::Vec;
use crate::kit::{fs, io};
use crate::proved::service_journal::disk::{Disk, DiskFault};
use crate::proved::service_watch::durations::DurationHistogram;

/// Who may read and write a file that is made: its owner both, its group read.
const MODE: u32 = 0o640;

/// Why `FileDisk::open` failed.
#[derive(Clone, Copy, Debug, PartialEq, Eq)]
pub enum FileFault {
    /// Another program has it open as its journal.
    InUse,
    /// It is a device, a pipe or a socket. What is read of it is not what was written, and may have no end.
    NotRegular,
    /// It has more than one name. The others would keep the old bytes after a `replace`.
    Linked,
    /// There is no file of this path.
    Missing,
    /// There is a file of this path, where one was to be made.
    Exists,
    /// The system failed, as it reported.
    Failed(ErrorKind),
}

impl From<io::Error> for FileFault {
    fn from(error: io::Error) -> FileFault {
        FileFault::Failed(error.kind())
    }
}

/// Which file a name or a descriptor leads to. As long as a file is open, no other has its number on its device.
#[derive(Clone, Copy, Debug, PartialEq, Eq)]
struct FileNumber {
    device: u64,
    inode: u64,
}

impl FileNumber {
    /// The number of the file of which this is reported.
    fn of(reported: &Metadata) -> FileNumber {
        FileNumber {
            device: reported.dev(),
            inode: reported.ino(),
        }
    }
}

/// When a folder was changed last: an entry made, moved or removed in it, or the folder itself moved.
#[derive(Clone, Copy, Debug, PartialEq, Eq)]
struct FolderStamp {
    seconds: i64,
    nanoseconds: i64,
}

impl FolderStamp {
    /// The stamp of the folder of which this is reported.
    fn of(reported: &Metadata) -> FolderStamp {
        FolderStamp {
            seconds: reported.ctime(),
            nanoseconds: reported.ctime_nsec(),
        }
    }
}

/// A file of the system as a disk. It is written at its end alone, and locked as long as it is open.
pub struct FileDisk<R> {
    files: R,
    /// The path with no link in it.
    path: String,
    file: File,
    /// The number of that file.
    number: FileNumber,
    /// The folder of the path, as it was when the file was opened.
    folder: File,
    /// The folder's stamp before the last look by the path, which found the file; `None` before the first.
    looked_at: Option<FolderStamp>,
    /// How many bytes it has by what was written.
    len: u64,
    /// How often all bytes were replaced.
    replacings: u64,
    /// How long its syncs took.
    times: DurationHistogram,
}

/// The folder of a path.
fn folder_of(path: &str) -> &str {
    match path.rfind('/') {
        Some(0) => "/",
        Some(end) => path.get(..end).unwrap_or("."),
        None => ".",
    }
}

/// Opens a file for reading all and writing at its end.
fn found<R: Files<File = File>>(rt: &R, path: &str) -> io::Result<File> {
    File::options().read(true).append(true).open(rt, path)
}

/// The same of a file that is made where it is missing.
fn made<R: Files<File = File>>(rt: &R, path: &str) -> io::Result<File> {
    File::options()
        .read(true)
        .append(true)
        .create(true)
        .mode(MODE)
        .open(rt, path)
}

/// Waits until what stands in the folder of a path is durable.
fn sync_folder<R: Files<File = File>>(rt: &R, path: &str) -> io::Result<()> {
    File::sync_all(&File::open(rt, folder_of(path))?)
}

/// Locks a file that was opened by a path. Where the path names another by now, whoever put that there has it in use.
fn lock<R: Files<File = File>>(rt: &R, path: &str, file: &File) -> Result<(), FileFault> {
    match File::try_lock(file) {
        Ok(()) => {}
        Err(TryLockError::WouldBlock) => return Err(FileFault::InUse),
        Err(TryLockError::Error(error)) => return Err(FileFault::from(error)),
    }
    let named = fs::metadata(rt, path)?;
    if FileNumber::of(&named) != FileNumber::of(&File::metadata(file)?) {
        return Err(FileFault::InUse);
    }
    Ok(())
}

/// Opens and locks a regular file of one name, and syncs its folder.
fn locked<R: Files<File = File>>(rt: &R, path: &str) -> Result<File, FileFault> {
    let file = found(rt, path)?;
    let held = File::metadata(&file)?;
    if !held.is_file() {
        return Err(FileFault::NotRegular);
    }
    if 1 < held.nlink() {
        return Err(FileFault::Linked);
    }
    lock(rt, path, &file)?;
    sync_folder(rt, path)?;
    Ok(file)
}

/// Locks a file and puts these bytes in place of all that was in it, so that they are durable.
fn fill(file: &mut File, bytes: &[u8]) -> io::Result<()> {
    File::try_lock(file)?;
    File::set_len(file, 0)?;
    file.write_all(bytes)?;
    File::sync_all(file)
}

/// A file at this path with these bytes, all of them durable, and locked. Where it could not be written nothing is left there.
fn written<R: Files<File = File>>(rt: &R, path: &str, bytes: &[u8]) -> io::Result<File> {
    let mut file = made(rt, path)?;
    match fill(&mut file, bytes) {
        Ok(()) => Ok(file),
        Err(error) => {
            let _ = fs::remove_file(rt, path);
            Err(error)
        }
    }
}

/// The same, once the folder was opened, which is opened again for its sync.
fn write_beside<R: Files<File = File>>(rt: &R, path: &str, bytes: &[u8]) -> io::Result<()> {
    let _folder = File::open(rt, folder_of(path))?;
    let _file = written(rt, path, bytes)?;
    Ok(())
}

impl<R: Files<File = File> + AllocGlobal + Copy> FileDisk<R> {
    /// Makes a file with no bytes and of mode 0640, and locks it. Where a link leads nowhere its file is made.
    ///
    /// # Errors
    ///
    /// `Exists`: a file is there, which is left as it is; and those of `open`, but for `Missing`.
    pub fn create(rt: &R, path: &str) -> Result<FileDisk<R>, FileFault> {
        if fs::metadata(rt, path).is_ok() {
            return Err(FileFault::Exists);
        }
        let _ = made(rt, path)?;
        FileDisk::open(rt, path)
    }

    /// Opens a file and locks it.
    ///
    /// A link is followed once, now: a later `replace` puts a new file in place of the one that the link names.
    ///
    /// # Errors
    ///
    /// The first that applies is returned:
    ///
    /// - `Failed`: the system failed. It may do so at any point.
    /// - `Missing`: there is no such file, nor a link to one.
    /// - `NotRegular`: the path names a device, a pipe or a socket.
    /// - `Linked`: the file has more than one name.
    /// - `InUse`: another program has locked the file, or has put another in its place.
    pub fn open(rt: &R, path: &str) -> Result<FileDisk<R>, FileFault> {
        let path = match fs::canonicalize(rt, path) {
            Ok(path) => path.into_string(),
            Err(error) if error.kind() == ErrorKind::NotFound => return Err(FileFault::Missing),
            Err(error) => return Err(FileFault::from(error)),
        };
        let file = locked(rt, &path)?;
        let folder = File::open(rt, folder_of(&path))?;
        let held = File::metadata(&file)?;
        Ok(FileDisk {
            files: *rt,
            path,
            file,
            number: FileNumber::of(&held),
            folder,
            looked_at: None,
            len: held.len(),
            replacings: 0,
            times: DurationHistogram::new(),
        })
    }
}

impl<R: Files<File = File>> FileDisk<R> {
    /// The path beside it.
    fn path_beside(&self, alloc: Global) -> Result<String, DiskFault> {
        Ok(format!(in alloc; "{}.new", self.path)?)
    }
}

impl<R: Files<File = File> + Clock> FileDisk<R> {
    /// Looks by the path if the folder was changed since that was last done, and else at the file's length alone: no file leaves its
    /// name while its folder stays as it was. That takes a third of the time. A folder further up that is moved is not noticed so.
    fn look_again(&mut self) -> Result<(), DiskFault> {
        let stamp = FolderStamp::of(&File::metadata(&self.folder)?);
        if self.looked_at != Some(stamp) {
            self.look()?;
            self.looked_at = Some(stamp);
            return Ok(());
        }
        if self.file.seek(SeekFrom::End(0))? == self.len {
            Ok(())
        } else {
            Err(DiskFault::Moved)
        }
    }

    /// Notes a sync that was begun then. Where the clock fails, none is noted.
    fn note_sync(&mut self, begun: io::Result<Instant>) {
        if let Ok(begun) = begun {
            if let Ok(took) = begun.elapsed(&self.files) {
                self.times.note(took);
            }
        }
    }
}

impl<R: Files<File = File> + Clock> Disk for FileDisk<R> {
    fn read(&mut self, alloc: Global) -> Result<Vec<u8>, DiskFault> {
        let mut bytes = Vec::new(alloc);
        self.file.seek(SeekFrom::Start(0))?;
        self.file.read_to_end(&mut bytes)?;
        Ok(bytes)
    }

    fn append(&mut self, bytes: &[u8]) -> Result<(), DiskFault> {
        self.file.write_all(bytes)?;
        self.len = self.len.saturating_add(bytes.len() as u64);
        Ok(())
    }

    /// Fails if the file was deleted, moved or cut short in the meantime. It measures that look and the sync.
    fn sync(&mut self) -> Result<(), DiskFault> {
        let begun = Instant::now(&self.files);
        self.look_again()?;
        File::sync_data(&self.file)?;
        self.note_sync(begun);
        Ok(())
    }

    fn cut(&mut self, len: usize) -> Result<(), DiskFault> {
        File::set_len(&self.file, len as u64)?;
        self.len = len as u64;
        Ok(())
    }

    /// Writes them into a file beside, `PATH.new`, syncs it, and opens the folder, as `replace` does.
    fn can_replace(&self, alloc: Global, bytes: &[u8]) -> bool {
        match self.path_beside(alloc) {
            Ok(path) => write_beside(&self.files, &path, bytes).is_ok(),
            Err(_) => false,
        }
    }

    /// Writes the bytes into a file beside, `PATH.new`, locks it, syncs it and renames it. Then it syncs the folder.
    ///
    /// A file of that name that a crash left is written over.
    fn replace(&mut self, alloc: Global, bytes: &[u8]) -> Result<(), DiskFault> {
        let path = self.path_beside(alloc)?;
        let file = written(&self.files, &path, bytes)?;
        let number = FileNumber::of(&File::metadata(&file)?);
        fs::rename(&self.files, &path, &self.path)?;
        self.file = file;
        self.number = number;
        self.len = bytes.len() as u64;
        self.replacings = self.replacings.saturating_add(1);
        sync_folder(&self.files, &self.path)?;
        Ok(())
    }

    // Where the path names the file that is open, what is reported of the path is reported of the file.
    fn look(&self) -> Result<(), DiskFault> {
        match fs::metadata(&self.files, &self.path) {
            Ok(named) if FileNumber::of(&named) == self.number && named.len() == self.len => Ok(()),
            Ok(_) => Err(DiskFault::Moved),
            Err(error) if error.kind() == ErrorKind::NotFound => Err(DiskFault::Moved),
            Err(error) => Err(DiskFault::from(error)),
        }
    }

    fn size(&self) -> u64 {
        self.len
    }

    fn replacings(&self) -> Option<u64> {
        Some(self.replacings)
    }

    fn sync_times(&self) -> Option<DurationHistogram> {
        Some(self.times)
    }
}
