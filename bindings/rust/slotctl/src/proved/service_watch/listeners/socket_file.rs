// Erased by bindings/rust/erase from crates/service_watch/src/listeners/socket_file.rt, sha256 650d8252201e3a310e86311b85d3ca7c11f5165983fd626b683f201770dd1f29.
//! A socket of the file system.

use crate::kit::alloc::Global;
use crate::kit::fs;
use crate::kit::fs::{Metadata, Permissions};
use crate::kit::io::ErrorKind;
use crate::kit::mio::net::{UnixListener, UnixStream};
use crate::kit::net::Net;
use crate::kit::rt::Files;
use crate::kit::String;
use crate::proved::service_watch::listeners::fault::{socket_fault, ListenFault};

/// A socket of the file system that is to be listened on.
#[derive(Clone, Copy, Debug)]
pub struct SocketPlan<'a> {
    /// Its path, of at most 107 bytes, of which the system takes no more.
    pub path: &'a str,
    /// Who may connect: the bits of a file's mode, at most 0o777. Whoever may write may connect.
    pub mode: u32,
}

/// A listener of this machine.
pub struct LocalListener {
    /// The listener.
    pub listener: UnixListener,
    /// Its path, as it was given.
    pub path: String,
}

/// The file of a socket that is listened on.
pub struct SocketFile {
    path: String,
    /// Which file it is: its device and its number there.
    device: u64,
    number: u64,
}

// Whether somebody listens on a socket, as far as a connection tells: where the system refuses it for another reason than that nobody does,
// somebody may.
fn is_listened_on<R: Net>(rt: &R, path: &str) -> bool {
    match UnixStream::connect(rt, path) {
        Ok(_) => true,
        Err(error) => error.kind() != ErrorKind::ConnectionRefused,
    }
}

// Makes room at a path: a socket on which nobody listens is removed, and nothing else is.
fn make_room<R: Net + Files>(rt: &R, path: &str) -> Result<(), ListenFault> {
    match fs::symlink_metadata(rt, path) {
        Ok(held) if !held.file_type().is_socket() => Err(ListenFault::NotSocket),
        Ok(_) if is_listened_on(rt, path) => Err(ListenFault::InUse),
        Ok(_) => fs::remove_file(rt, path).map_err(socket_fault),
        Err(error) if error.kind() == ErrorKind::NotFound => Ok(()),
        Err(error) => Err(socket_fault(error)),
    }
}

// A path of one's own.
fn copied(alloc: Global, path: &str) -> Result<String, ListenFault> {
    String::from_str(alloc, path).map_err(|_| ListenFault::Socket(ErrorKind::OutOfMemory))
}

// What the system tells of a path.
fn told_of<R: Files>(rt: &R, path: &str) -> Result<Metadata, ListenFault> {
    fs::symlink_metadata(rt, path).map_err(socket_fault)
}

/// Listens on a socket of the file system, which is made with this mode. An old one on which nobody listens is removed before.
///
/// # Errors
///
/// `NotSocket` where the path names something else, `InUse` where somebody listens there, and `Socket` where the system refuses one of the
/// steps. Where it refuses the mode, the socket that was made stays.
pub fn listen_at<R: Net + Files>(
    rt: &R,
    alloc: Global,
    plan: SocketPlan<'_>,
) -> Result<(LocalListener, SocketFile), ListenFault> {
    let path = copied(alloc, plan.path)?;
    let file_path = copied(alloc, plan.path)?;
    make_room(rt, plan.path)?;
    let listener = UnixListener::bind(rt, plan.path).map_err(socket_fault)?;
    fs::set_permissions(rt, plan.path, Permissions::from_mode(plan.mode)).map_err(socket_fault)?;
    let held = told_of(rt, plan.path)?;
    let file = SocketFile {
        path: file_path,
        device: held.dev(),
        number: held.ino(),
    };
    Ok((LocalListener { listener, path }, file))
}

impl SocketFile {
    /// Removes the file, where its path still names it. What the system refuses stays.
    pub fn remove<R: Files>(self, rt: &R) {
        if let Ok(held) = fs::symlink_metadata(rt, &self.path) {
            if held.dev() == self.device && held.ino() == self.number {
                let _ = fs::remove_file(rt, &self.path);
            }
        }
    }
}

/// The files of all sockets that are listened on.
pub struct SocketFiles {
    /// That for clients, where there is one.
    pub local: Option<SocketFile>,
    /// That for administrators, where there is one.
    pub admin: Option<SocketFile>,
}

impl SocketFiles {
    /// Removes them, as `SocketFile::remove` does.
    pub fn remove<R: Files>(self, rt: &R) {
        let SocketFiles { local, admin } = self;
        if let Some(file) = local {
            file.remove(rt);
        }
        if let Some(file) = admin {
            file.remove(rt);
        }
    }
}
