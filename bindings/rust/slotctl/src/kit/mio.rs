//! Sockets that do not wait, over the original `mio`, in the place of the kit's.

use super::alloc::{AllocError, Allocator, Global};
use super::net::Net;
use super::time::Duration;
use std::io;

pub use ::mio::{event, Interest, Token};

/// What waits for many sockets at once.
pub struct Poll(::mio::Poll);

impl Poll {
    /// `new`: one that waits for nothing yet.
    pub fn new<R: Net>(_rt: &R) -> io::Result<Poll> {
        ::mio::Poll::new().map(Poll)
    }

    /// `registry`: where sockets are entered.
    pub fn registry(&self) -> &::mio::Registry {
        self.0.registry()
    }

    /// `poll`: waits for so long at most, and notes what the system tells.
    pub fn poll(&mut self, events: &mut Events<Global>, most: Option<Duration>) -> io::Result<()> {
        match self.0.poll(&mut events.events, most) {
            // The kit's tells of no event where a signal came.
            Err(error) if error.kind() == io::ErrorKind::Interrupted => {
                events.events.clear();
                Ok(())
            }
            polled => polled,
        }
    }

    /// `as_raw_fd`: the number by which another waits for it, on systems that have one.
    #[cfg(unix)]
    pub fn as_raw_fd(&self) -> i32 {
        std::os::fd::AsRawFd::as_raw_fd(&self.0)
    }

    /// The same elsewhere, where none can be waited for.
    #[cfg(not(unix))]
    pub fn as_raw_fd(&self) -> i32 {
        0
    }
}

/// What the system told.
pub struct Events<A> {
    events: ::mio::Events,
    _alloc: A,
}

impl<A: Allocator> Events<A> {
    /// `with_capacity`: room for so many events. The original asks for memory by calls that do not fail, so that much is
    /// asked for before.
    ///
    /// # Errors
    ///
    /// `AllocError` where an allocation failed.
    pub fn with_capacity(alloc: A, count: usize) -> Result<Events<A>, AllocError> {
        let mut room = Vec::<u64>::new();
        room.try_reserve_exact(count.saturating_mul(4))?;
        drop(room);
        Ok(Events {
            events: ::mio::Events::with_capacity(count),
            _alloc: alloc,
        })
    }

    /// `iter`: the events.
    pub fn iter(&self) -> ::mio::event::Iter<'_> {
        self.events.iter()
    }
}

impl<'a, A: Allocator> IntoIterator for &'a Events<A> {
    type Item = &'a event::Event;
    type IntoIter = ::mio::event::Iter<'a>;

    fn into_iter(self) -> Self::IntoIter {
        self.iter()
    }
}

/// Reads and writes a connection of the original, and lets it be waited for.
macro_rules! stream {
    ($name:ident) => {
        impl crate::kit::io::Read for &$name {
            fn read(&mut self, bytes: &mut [u8]) -> io::Result<usize> {
                io::Read::read(&mut &self.0, bytes)
            }
        }

        impl io::Write for &$name {
            fn write(&mut self, bytes: &[u8]) -> io::Result<usize> {
                io::Write::write(&mut &self.0, bytes)
            }

            fn flush(&mut self) -> io::Result<()> {
                Ok(())
            }
        }

        impl crate::kit::io::Read for $name {
            fn read(&mut self, bytes: &mut [u8]) -> io::Result<usize> {
                (&*self).read(bytes)
            }
        }

        impl io::Write for $name {
            fn write(&mut self, bytes: &[u8]) -> io::Result<usize> {
                (&*self).write(bytes)
            }

            fn flush(&mut self) -> io::Result<()> {
                Ok(())
            }
        }

        impl $name {
            /// `shutdown`: says that nothing more comes.
            pub fn shutdown(&self, how: crate::kit::net::Shutdown) -> io::Result<()> {
                self.0.shutdown(how)
            }
        }

        waited_for!($name);
    };
}

/// Lets a socket be waited for.
macro_rules! waited_for {
    ($name:ident) => {
        impl ::mio::event::Source for $name {
            fn register(
                &mut self,
                registry: &Registry,
                token: Token,
                interests: Interest,
            ) -> io::Result<()> {
                self.0.register(registry, token, interests)
            }

            fn reregister(
                &mut self,
                registry: &Registry,
                token: Token,
                interests: Interest,
            ) -> io::Result<()> {
                self.0.reregister(registry, token, interests)
            }

            fn deregister(&mut self, registry: &Registry) -> io::Result<()> {
                self.0.deregister(registry)
            }
        }
    };
}

pub mod net {
    //! The kit's `mio::net`.
    use super::super::net::{Net, SocketAddr};
    use ::mio::{Interest, Registry, Token};
    use std::io;

    /// A socket of TCP that takes connections.
    pub struct TcpListener(::mio::net::TcpListener);

    /// A connection by TCP.
    pub struct TcpStream(::mio::net::TcpStream);

    stream!(TcpStream);
    waited_for!(TcpListener);

    impl TcpListener {
        /// `bind`: listens at an address.
        pub fn bind<R: Net>(_rt: &R, address: SocketAddr) -> io::Result<TcpListener> {
            ::mio::net::TcpListener::bind(address).map(TcpListener)
        }

        /// `accept`: takes a connection that waits.
        pub fn accept(&self) -> io::Result<(TcpStream, SocketAddr)> {
            let (stream, from) = self.0.accept()?;
            Ok((TcpStream(stream), from))
        }

        /// `local_addr`: where it listens.
        pub fn local_addr(&self) -> io::Result<SocketAddr> {
            self.0.local_addr()
        }
    }

    impl TcpStream {
        /// `set_nodelay`: sends what is written at once.
        pub fn set_nodelay(&self, on: bool) -> io::Result<()> {
            self.0.set_nodelay(on)
        }
    }

    pub use local::{UnixListener, UnixStream};

    #[cfg(unix)]
    mod local {
        use super::Net;
        use ::mio::{Interest, Registry, Token};
        use std::io;

        /// A socket of the file system that takes connections.
        pub struct UnixListener(::mio::net::UnixListener);

        /// A connection by such a socket.
        pub struct UnixStream(::mio::net::UnixStream);

        stream!(UnixStream);
        waited_for!(UnixListener);

        impl UnixListener {
            /// `bind`: listens at a path.
            pub fn bind<R: Net>(_rt: &R, path: &str) -> io::Result<UnixListener> {
                ::mio::net::UnixListener::bind(path).map(UnixListener)
            }

            /// `accept`: takes a connection that waits.
            pub fn accept(&self) -> io::Result<(UnixStream, ())> {
                let (stream, _) = self.0.accept()?;
                Ok((UnixStream(stream), ()))
            }
        }

        impl UnixStream {
            /// `connect`: connects to a path.
            pub fn connect<R: Net>(_rt: &R, path: &str) -> io::Result<UnixStream> {
                ::mio::net::UnixStream::connect(path).map(UnixStream)
            }
        }
    }

    // There are no such sockets: `--unix` is refused by the system's word for it.
    #[cfg(not(unix))]
    mod local {
        use super::Net;
        use ::mio::event::Source;
        use ::mio::{Interest, Registry, Token};
        use std::io;

        /// A socket that is never made.
        enum Never {}

        impl Never {
            fn shutdown(&self, _how: crate::kit::net::Shutdown) -> io::Result<()> {
                match *self {}
            }
        }

        impl io::Read for &Never {
            fn read(&mut self, _bytes: &mut [u8]) -> io::Result<usize> {
                match **self {}
            }
        }

        impl io::Write for &Never {
            fn write(&mut self, _bytes: &[u8]) -> io::Result<usize> {
                match **self {}
            }

            fn flush(&mut self) -> io::Result<()> {
                match **self {}
            }
        }

        impl Source for Never {
            fn register(
                &mut self,
                _registry: &Registry,
                _token: Token,
                _interests: Interest,
            ) -> io::Result<()> {
                match *self {}
            }

            fn reregister(
                &mut self,
                _registry: &Registry,
                _token: Token,
                _interests: Interest,
            ) -> io::Result<()> {
                match *self {}
            }

            fn deregister(&mut self, _registry: &Registry) -> io::Result<()> {
                match *self {}
            }
        }

        /// A socket of the file system that takes connections.
        pub struct UnixListener(Never);

        /// A connection by such a socket.
        pub struct UnixStream(Never);

        stream!(UnixStream);
        waited_for!(UnixListener);

        impl UnixListener {
            /// `bind`: listens at a path.
            pub fn bind<R: Net>(_rt: &R, _path: &str) -> io::Result<UnixListener> {
                Err(io::ErrorKind::Unsupported.into())
            }

            /// `accept`: takes a connection that waits.
            pub fn accept(&self) -> io::Result<(UnixStream, ())> {
                match self.0 {}
            }
        }

        impl UnixStream {
            /// `connect`: connects to a path.
            pub fn connect<R: Net>(_rt: &R, _path: &str) -> io::Result<UnixStream> {
                Err(io::ErrorKind::Unsupported.into())
            }
        }
    }
}

pub mod unix {
    //! The kit's `mio::unix`.
    #[cfg(unix)]
    pub use ::mio::unix::SourceFd;

    #[cfg(not(unix))]
    pub use missing::SourceFd;

    #[cfg(not(unix))]
    mod missing {
        use ::mio::{Interest, Registry, Token};
        use std::io;

        /// A number of an open file. None can be waited for here.
        pub struct SourceFd<'a>(pub &'a i32);

        impl ::mio::event::Source for SourceFd<'_> {
            fn register(
                &mut self,
                _registry: &Registry,
                _token: Token,
                _interests: Interest,
            ) -> io::Result<()> {
                Err(io::ErrorKind::Unsupported.into())
            }

            fn reregister(
                &mut self,
                _registry: &Registry,
                _token: Token,
                _interests: Interest,
            ) -> io::Result<()> {
                Err(io::ErrorKind::Unsupported.into())
            }

            fn deregister(&mut self, _registry: &Registry) -> io::Result<()> {
                Err(io::ErrorKind::Unsupported.into())
            }
        }
    }
}
