//! Files, in the place of the kit's `std::fs`.

use super::rt::Files;
use super::String;
use std::io::{self, Read as _, Seek, SeekFrom, Write};

pub use std::fs::TryLockError;

/// An open file.
pub struct File(std::fs::File);

/// How a file is opened.
pub struct OpenOptions {
    options: std::fs::OpenOptions,
}

impl File {
    /// `options`: how to open a file.
    pub fn options() -> OpenOptions {
        let options = std::fs::OpenOptions::new();
        OpenOptions { options }
    }

    /// `open`: opens a file to be read, or a folder to be synced.
    pub fn open<R: Files>(_rt: &R, path: &str) -> io::Result<File> {
        std::fs::File::open(path).map(File)
    }

    /// `try_lock`: locks it, if nobody else has.
    pub fn try_lock(&self) -> Result<(), TryLockError> {
        self.0.try_lock()
    }

    /// `metadata`: what the system says of it.
    pub fn metadata(&self) -> io::Result<Metadata> {
        self.0.metadata().map(Metadata)
    }

    /// `set_len`: cuts it.
    pub fn set_len(&self, len: u64) -> io::Result<()> {
        self.0.set_len(len)
    }

    /// `sync_all`: waits until it is stored.
    pub fn sync_all(&self) -> io::Result<()> {
        self.0.sync_all()
    }

    /// `sync_data`: waits until what it holds is stored.
    pub fn sync_data(&self) -> io::Result<()> {
        self.0.sync_data()
    }

    /// `seek`: goes to a place of it.
    pub fn seek(&mut self, to: SeekFrom) -> io::Result<u64> {
        self.0.seek(to)
    }
}

impl Write for File {
    fn write(&mut self, bytes: &[u8]) -> io::Result<usize> {
        self.0.write(bytes)
    }

    fn flush(&mut self) -> io::Result<()> {
        Ok(())
    }
}

impl super::io::Read for File {
    fn read(&mut self, bytes: &mut [u8]) -> io::Result<usize> {
        self.0.read(bytes)
    }
}

impl OpenOptions {
    /// `read`: to be read.
    pub fn read(mut self, on: bool) -> OpenOptions {
        self.options.read(on);
        self
    }

    /// `append`: each write goes to the end.
    pub fn append(mut self, on: bool) -> OpenOptions {
        self.options.append(on);
        self
    }

    /// `create`: it is made where there is none.
    pub fn create(mut self, on: bool) -> OpenOptions {
        self.options.create(on);
        self
    }

    /// `mode`: who may read and write a file that is made. Windows has no such modes.
    pub fn mode(mut self, mode: u32) -> OpenOptions {
        system::set_mode(&mut self.options, mode);
        self
    }

    /// `open`: opens it.
    pub fn open<R: Files>(self, _rt: &R, path: &str) -> io::Result<File> {
        self.options.open(path).map(File)
    }
}

/// What the system says of a file.
pub struct Metadata(std::fs::Metadata);

impl Metadata {
    /// `len`: how many bytes it has.
    pub fn len(&self) -> u64 {
        self.0.len()
    }

    /// `is_file`: whether it is a regular file.
    pub fn is_file(&self) -> bool {
        self.0.is_file()
    }

    /// `file_type`: of what kind it is.
    pub fn file_type(&self) -> FileType {
        FileType(self.0.file_type())
    }

    /// `dev`: its device.
    pub fn dev(&self) -> u64 {
        system::numbers(&self.0).device
    }

    /// `ino`: its number on that device.
    pub fn ino(&self) -> u64 {
        system::numbers(&self.0).inode
    }

    /// `nlink`: how many names it has.
    pub fn nlink(&self) -> u64 {
        system::numbers(&self.0).names
    }

    /// `ctime`: when it changed last, in seconds.
    pub fn ctime(&self) -> i64 {
        system::numbers(&self.0).seconds
    }

    /// `ctime_nsec`: the nanoseconds beside them.
    pub fn ctime_nsec(&self) -> i64 {
        system::numbers(&self.0).nanoseconds
    }
}

/// Of what kind a file is.
pub struct FileType(std::fs::FileType);

impl FileType {
    /// `is_socket`: whether it is a socket.
    pub fn is_socket(&self) -> bool {
        system::is_socket(&self.0)
    }
}

/// Who may read and write a file.
pub struct Permissions {
    mode: u32,
}

impl Permissions {
    /// `from_mode`: by these bits.
    pub fn from_mode(mode: u32) -> Permissions {
        Permissions { mode }
    }
}

/// `metadata`: what the system says of the file at a path.
pub fn metadata<R: Files>(_rt: &R, path: &str) -> io::Result<Metadata> {
    std::fs::metadata(path).map(Metadata)
}

/// `read_to_string`: the text of a file.
///
/// # Errors
///
/// What the system says, and `InvalidData` where it is no text.
pub fn read_to_string<R: Files>(_rt: &R, path: &str) -> io::Result<String> {
    std::fs::read_to_string(path).map(String::of)
}

/// `symlink_metadata`: what it says of the name there.
pub fn symlink_metadata<R: Files>(_rt: &R, path: &str) -> io::Result<Metadata> {
    std::fs::symlink_metadata(path).map(Metadata)
}

/// `remove_file`: removes a name.
pub fn remove_file<R: Files>(_rt: &R, path: &str) -> io::Result<()> {
    std::fs::remove_file(path)
}

/// `rename`: gives a file another name.
pub fn rename<R: Files>(_rt: &R, from: &str, to: &str) -> io::Result<()> {
    std::fs::rename(from, to)
}

/// `set_permissions`: says who may read and write.
pub fn set_permissions<R: Files>(_rt: &R, path: &str, who: Permissions) -> io::Result<()> {
    system::permit(path, who.mode)
}

/// A path.
pub struct PathBuf {
    text: String,
}

impl PathBuf {
    /// `into_string`: its text.
    pub fn into_string(self) -> String {
        self.text
    }
}

/// `canonicalize`: the path with no link in it.
///
/// # Errors
///
/// What the system says, or `InvalidData` where the path is no text.
pub fn canonicalize<R: Files>(_rt: &R, path: &str) -> io::Result<PathBuf> {
    match std::fs::canonicalize(path)?.into_os_string().into_string() {
        Ok(text) => Ok(PathBuf {
            text: String::of(text),
        }),
        Err(_) => Err(io::ErrorKind::InvalidData.into()),
    }
}

/// What a system says of a file beside its length.
struct Numbers {
    device: u64,
    inode: u64,
    names: u64,
    seconds: i64,
    nanoseconds: i64,
}

#[cfg(unix)]
mod system {
    use super::Numbers;
    use std::fs::Permissions;
    use std::io;
    use std::os::unix::fs::{FileTypeExt, MetadataExt, OpenOptionsExt, PermissionsExt};

    pub fn set_mode(options: &mut std::fs::OpenOptions, mode: u32) {
        options.mode(mode);
    }

    pub fn numbers(of: &std::fs::Metadata) -> Numbers {
        Numbers {
            device: of.dev(),
            inode: of.ino(),
            names: of.nlink(),
            seconds: of.ctime(),
            nanoseconds: of.ctime_nsec(),
        }
    }

    pub fn is_socket(kind: &std::fs::FileType) -> bool {
        kind.is_socket()
    }

    pub fn permit(path: &str, mode: u32) -> io::Result<()> {
        std::fs::set_permissions(path, Permissions::from_mode(mode))
    }
}

// Stable Rust tells no number of a file here, so a journal that was moved is not noticed.
#[cfg(not(unix))]
mod system {
    use super::Numbers;
    use std::io;

    pub fn set_mode(_options: &mut std::fs::OpenOptions, _mode: u32) {}

    pub fn numbers(_of: &std::fs::Metadata) -> Numbers {
        Numbers {
            device: 0,
            inode: 0,
            names: 1,
            seconds: 0,
            nanoseconds: 0,
        }
    }

    pub fn is_socket(_kind: &std::fs::FileType) -> bool {
        false
    }

    pub fn permit(_path: &str, _mode: u32) -> io::Result<()> {
        Err(io::ErrorKind::Unsupported.into())
    }
}
