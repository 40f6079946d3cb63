// Erased by bindings/rust/erase from crates/service_log/src/etcd/dial.rt, sha256 f4b960b189e00314920c04051fd8bf5fd147ecc6e156323f8d6d315dc73ac7a8.
//! Streams to the members of etcd. No contract says what they carry.

use crate::kit::io::{Read, Write};
use crate::kit::net::{Net, OpenStream, SocketAddr, TcpStream};
use crate::kit::time::Duration;
use crate::kit::Vec;

/// Makes streams to members, which are counted from 0.
pub trait Dial: Sized {
    /// A stream to a member.
    type Stream: Read + Write;

    /// Returns the number of members. Not proved: it has no clause.
    fn members(&self) -> usize;

    /// Returns a new stream to a member, or `None` if it cannot make one. Not proved: it has no clause.
    fn dial(&mut self, member: usize) -> Option<Self::Stream>;
}

/// Makes streams over TCP, with a time limit for each read and each write.
pub struct TcpDial<'r, R: Net> {
    rt: &'r R,
    members: Vec<SocketAddr>,
    wait: Duration,
}

impl<'r, R: Net> TcpDial<'r, R> {
    /// Makes streams to members at these addresses. `wait` is the limit of each connect, read and write. Not proved: it
    /// has no clause.
    pub fn new(rt: &'r R, members: Vec<SocketAddr>, wait: Duration) -> TcpDial<'r, R> {
        TcpDial { rt, members, wait }
    }
}

// Sets the stream to send at once, with a time limit for each read and write. `None` if that failed. Not proved: it has
// no clause.
fn prepared<S: OpenStream>(stream: S, wait: Duration) -> Option<S> {
    let is_set = stream.set_nodelay(true).is_ok()
        && stream.set_read_timeout(Some(wait)).is_ok()
        && stream.set_write_timeout(Some(wait)).is_ok();
    is_set.then_some(stream)
}

impl<'r, R: Net> Dial for TcpDial<'r, R> {
    type Stream = R::Stream;

    fn members(&self) -> usize {
        self.members.len()
    }

    fn dial(&mut self, member: usize) -> Option<R::Stream> {
        let address = self.members.get(member)?;
        match TcpStream::connect_timeout(self.rt, address, self.wait) {
            Ok(stream) => prepared(stream, self.wait),
            Err(_) => None,
        }
    }
}
