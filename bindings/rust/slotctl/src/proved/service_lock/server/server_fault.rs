// Erased by bindings/rust/erase from crates/service_lock/src/server/server_fault.rt, sha256 0d1a3a4ef44717796bc64bcec4b0d8ec0b4a5e53f3e6dfc904e67c1f09df18f8.
//! Why a server failed.

use crate::kit::alloc::AllocError;
use crate::kit::thiserror::Error;

/// Why a server did not serve all its connections. A fault of one connection is none of these.
#[derive(Clone, Copy, Debug, PartialEq, Eq, Error)]
pub enum ServerFault {
    /// An allocation failed, and the clerks are lost.
    #[error("no memory")]
    Memory = 3,
    /// To listen or to accept failed.
    #[error("network fault")]
    Network = 4,
    /// The history at the end is not what the clerks kept.
    #[error("history fault")]
    History = 5,
}

/// Why `serve` failed.
#[derive(Clone, Copy, Debug, PartialEq, Eq)]
pub enum ServeFault {
    /// It did not serve all its connections.
    Server(ServerFault),
    /// Its output could not be written.
    Write,
}

impl From<AllocError> for ServeFault {
    fn from(_refused: AllocError) -> ServeFault {
        ServeFault::Server(ServerFault::Memory)
    }
}
