// Erased by bindings/rust/erase from crates/service_watch/src/listeners/fault.rt, sha256 3f957f099f0a892f797bec9f34f4c35683025148a6f07d3575834e543b9f0ade.
//! Why nothing is listened on.

use crate::kit::io;
use crate::kit::io::ErrorKind;
use crate::kit::thiserror::Error;

/// Why nothing is listened on. Its `Display` is the text for the operator.
#[derive(Clone, Copy, Debug, PartialEq, Eq, Error)]
pub enum ListenFault {
    /// To listen on a port failed, so the system told.
    #[error("network fault: {0}")]
    Network(ErrorKind),
    /// Somebody listens on the socket of the path.
    #[error("socket in use: somebody listens on the path of --unix or --admin")]
    InUse,
    /// What the path names is no socket.
    #[error("socket fault: the path of --unix or --admin names a file, a folder or a link, which was not removed")]
    NotSocket,
    /// To look at the path, to remove an old socket, to listen there or to set the mode failed, so the system told.
    #[error("socket fault: {0}")]
    Socket(ErrorKind),
}

/// A fault of a socket of the file system.
pub fn socket_fault(error: io::Error) -> ListenFault {
    ListenFault::Socket(error.kind())
}

impl From<io::Error> for ListenFault {
    fn from(error: io::Error) -> ListenFault {
        ListenFault::Network(error.kind())
    }
}
