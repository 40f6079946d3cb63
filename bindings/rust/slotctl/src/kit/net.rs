//! Sockets that wait, in the place of the kit's `std::net`.

use super::io::Read;
use super::time::Duration;
use std::io::{self, Read as _, Write};

pub use std::net::{IpAddr, Shutdown, SocketAddr};

/// Leave to open sockets.
pub trait Net: Sized {
    /// What is listened with.
    type Listener: OpenListener;

    /// A connection.
    type Stream: OpenStream + From<TcpStream>;
}

/// A socket that takes connections.
pub trait OpenListener {
    /// A connection.
    type Stream;

    /// `accept`: waits for one.
    fn accept(&self) -> io::Result<(Self::Stream, SocketAddr)>;
}

/// A connection.
pub trait OpenStream: Read + Write {
    /// `set_nodelay`: sends what is written at once.
    fn set_nodelay(&self, on: bool) -> io::Result<()>;

    /// `set_read_timeout`: a read waits no longer.
    fn set_read_timeout(&self, most: Option<Duration>) -> io::Result<()>;

    /// `set_write_timeout`: a write waits no longer.
    fn set_write_timeout(&self, most: Option<Duration>) -> io::Result<()>;
}

/// A socket of TCP that takes connections.
pub struct TcpListener(std::net::TcpListener);

impl TcpListener {
    /// `bind`: listens at an address.
    pub fn bind<R: Net>(_rt: &R, address: (&str, u16)) -> io::Result<TcpListener> {
        std::net::TcpListener::bind(address).map(TcpListener)
    }

    /// `local_addr`: where it listens.
    pub fn local_addr(&self) -> io::Result<SocketAddr> {
        self.0.local_addr()
    }
}

impl OpenListener for TcpListener {
    type Stream = TcpStream;

    fn accept(&self) -> io::Result<(TcpStream, SocketAddr)> {
        let (stream, from) = self.0.accept()?;
        Ok((TcpStream(stream), from))
    }
}

/// A connection by TCP.
pub struct TcpStream(std::net::TcpStream);

impl TcpStream {
    /// `connect_timeout`: connects, if that takes no longer.
    pub fn connect_timeout<R: Net>(
        _rt: &R,
        address: &SocketAddr,
        most: Duration,
    ) -> io::Result<R::Stream> {
        let stream = std::net::TcpStream::connect_timeout(address, most)?;
        Ok(TcpStream(stream).into())
    }

    /// `shutdown`: says that nothing more comes.
    pub fn shutdown(&self, how: Shutdown) -> io::Result<()> {
        self.0.shutdown(how)
    }

    /// `set_read_timeout`: a read waits no longer.
    pub fn set_read_timeout(&self, most: Option<Duration>) -> io::Result<()> {
        self.0.set_read_timeout(most)
    }
}

impl OpenStream for TcpStream {
    fn set_nodelay(&self, on: bool) -> io::Result<()> {
        self.0.set_nodelay(on)
    }

    fn set_read_timeout(&self, most: Option<Duration>) -> io::Result<()> {
        self.0.set_read_timeout(most)
    }

    fn set_write_timeout(&self, most: Option<Duration>) -> io::Result<()> {
        self.0.set_write_timeout(most)
    }
}

impl Read for &TcpStream {
    fn read(&mut self, bytes: &mut [u8]) -> io::Result<usize> {
        (&self.0).read(bytes)
    }
}

impl Write for &TcpStream {
    fn write(&mut self, bytes: &[u8]) -> io::Result<usize> {
        (&self.0).write(bytes)
    }

    fn flush(&mut self) -> io::Result<()> {
        Ok(())
    }
}

impl Read for TcpStream {
    fn read(&mut self, bytes: &mut [u8]) -> io::Result<usize> {
        self.0.read(bytes)
    }
}

impl Write for TcpStream {
    fn write(&mut self, bytes: &[u8]) -> io::Result<usize> {
        self.0.write(bytes)
    }

    fn flush(&mut self) -> io::Result<()> {
        Ok(())
    }
}
