//! The runtime that the kit hands to `main`, and what its bounds stand for.

use super::alloc::{AllocGlobal, Global};
use super::io::Standard;
use super::{io, net, sync, thread, time};

/// What `main` is given: it stands for the system.
#[derive(Clone, Copy)]
pub struct HostRuntime;

impl HostRuntime {
    /// `alloc`: the allocator of the program.
    pub fn alloc(&self) -> Global {
        Global
    }

    /// `stdin`: the standard input.
    pub fn stdin(&self) -> Standard {
        io::stdin()
    }

    /// `stdout`: the standard output.
    pub fn stdout(&self) -> Standard {
        io::stdout()
    }

    /// `stderr`: the standard error.
    pub fn stderr(&self) -> Standard {
        io::stderr()
    }
}

/// Leave to read and write files.
pub trait Files {
    /// An open file.
    type File;
}

/// Leave to read the clock.
pub use time::Clock;

impl Files for HostRuntime {
    type File = super::fs::File;
}

impl Clock for HostRuntime {}
impl AllocGlobal for HostRuntime {}
impl thread::Threads for HostRuntime {}
impl sync::Wait for HostRuntime {}

impl net::Net for HostRuntime {
    type Listener = net::TcpListener;
    type Stream = net::TcpStream;
}
