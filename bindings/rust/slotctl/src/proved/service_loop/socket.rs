// Erased by bindings/rust/erase from crates/service_loop/src/socket.rt, sha256 12e4a94f2aa7f9650e4941841c9136a2c647abd1e158b6c6e732c1bdbbe19f0d.
//! A stream of the system as a stream of the loop.

use crate::kit::alloc::Global;
use crate::kit::io;
use crate::kit::io::{Read, Write};
use crate::kit::mio::net::{TcpStream, UnixStream};
use crate::kit::mio::{Interest, Poll, Token};
use crate::kit::net::Shutdown;
use crate::proved::service_loop::owner_lines::OwnerLines;
use crate::proved::service_loop::stream::Stream;

/// A connection of the network, or of this machine by a socket of the file system. It does not tell its bytes.
pub enum Wire {
    /// By TCP.
    Network(TcpStream),
    /// By a socket of the file system.
    Local(UnixStream),
}

/// A connection of the system, and what its lines go through.
pub struct Socket {
    wire: Wire,
    /// Whether its client may speak for all.
    admin: bool,
    /// Its lines, where clients own their identities.
    owners: Option<OwnerLines>,
}

impl Socket {
    /// A connection of a client, or of an administrator.
    pub fn new(wire: Wire, admin: bool) -> Socket {
        Socket {
            wire,
            admin,
            owners: None,
        }
    }

    /// From now on its lines name identities as those who own them do, unless it is an administrator's.
    pub fn own(&mut self, alloc: Global) {
        if !self.admin {
            self.owners = Some(OwnerLines::new(alloc));
        }
    }

    /// Sends small pieces at once, where streams of its kind would hold them back.
    pub fn hurry(&self) {
        if let Wire::Network(stream) = &self.wire {
            let _ = stream.set_nodelay(true);
        }
    }

    /// Has a poll tell, under this token, when it may be read or written.
    ///
    /// # Errors
    ///
    /// What the system says.
    pub fn register(&mut self, poll: &Poll, token: Token) -> io::Result<()> {
        let both = Interest::READABLE | Interest::WRITABLE;
        match &mut self.wire {
            Wire::Network(stream) => poll.registry().register(stream, token, both),
            Wire::Local(stream) => poll.registry().register(stream, token, both),
        }
    }

    /// Has a poll tell nothing of it any more.
    ///
    /// # Errors
    ///
    /// What the system says.
    pub fn deregister(&mut self, poll: &Poll) -> io::Result<()> {
        match &mut self.wire {
            Wire::Network(stream) => poll.registry().deregister(stream),
            Wire::Local(stream) => poll.registry().deregister(stream),
        }
    }

    /// Says to the other side that no more is sent.
    pub fn end(&self) {
        let _ = match &self.wire {
            Wire::Network(stream) => stream.shutdown(Shutdown::Write),
            Wire::Local(stream) => stream.shutdown(Shutdown::Write),
        };
    }
}

impl Stream for Wire {
    fn read_some(&mut self, buf: &mut [u8]) -> io::Result<usize> {
        match self {
            Wire::Network(stream) => stream.read(buf),
            Wire::Local(stream) => stream.read(buf),
        }
    }

    fn write_some(&mut self, buf: &[u8]) -> io::Result<usize> {
        match self {
            Wire::Network(stream) => stream.write(buf),
            Wire::Local(stream) => stream.write(buf),
        }
    }
}

impl Stream for Socket {
    fn read_some(&mut self, buf: &mut [u8]) -> io::Result<usize> {
        match &mut self.owners {
            Some(lines) => lines.read(&mut self.wire, buf),
            None => self.wire.read_some(buf),
        }
    }

    fn write_some(&mut self, buf: &[u8]) -> io::Result<usize> {
        self.wire.write_some(buf)
    }
}
