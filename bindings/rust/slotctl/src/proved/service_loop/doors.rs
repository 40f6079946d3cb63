// Erased by bindings/rust/erase from crates/service_loop/src/doors.rt, sha256 92107e3c002db958133ebdae762a282373eed86e5afccb0a2833b20618bc5ecf.
//! The listeners for clients, and who waits there.

use crate::kit::io;
use crate::kit::io::ErrorKind;
use crate::kit::mio::net::TcpListener;
use crate::kit::mio::{Interest, Poll, Token};
use crate::kit::net::SocketAddr;
use crate::proved::service_loop::socket::{Socket, Wire};
use crate::proved::service_watch::listeners::socket_file::LocalListener;

/// The token of the listener of the network; no seat has it.
const NETWORK: Token = Token(1 << 60);

/// The token of the listener of this machine; no seat has it.
const LOCAL: Token = Token((1 << 60) + 2);

/// The token of the listener for administrators; no seat has it.
const ADMIN: Token = Token((1 << 60) + 3);

/// The listeners for clients.
pub struct Doors {
    network: Option<TcpListener>,
    local: Option<LocalListener>,
    admin: Option<LocalListener>,
    /// Whether connections may wait at each to be accepted: the system tells only once that some do.
    network_waits: bool,
    local_waits: bool,
    admin_waits: bool,
    /// Whether it is the turn of the one for this machine, where connections wait at both.
    local_next: bool,
}

/// What came of accepting one connection.
pub enum Accepted {
    /// This one, and the address that it comes from, where that is of the network.
    Stream(Socket, Option<SocketAddr>),
    /// None, and another may be tried.
    Nobody,
    /// None: the system has no room for more.
    Full,
}

// Why none was accepted. Where none waits, that is noted.
fn not_accepted(error: &io::Error, waits: &mut bool) -> Accepted {
    match error.kind() {
        ErrorKind::WouldBlock => {
            *waits = false;
            Accepted::Nobody
        }
        ErrorKind::Interrupted | ErrorKind::ConnectionAborted => Accepted::Nobody,
        _ => Accepted::Full,
    }
}

// Accepts one at a socket of the file system, if one waits.
fn accept_at(local: &Option<LocalListener>, waits: &mut bool, admin: bool) -> Accepted {
    let Some(local) = local else {
        *waits = false;
        return Accepted::Nobody;
    };
    match local.listener.accept() {
        Ok((stream, _)) => Accepted::Stream(Socket::new(Wire::Local(stream), admin), None),
        Err(error) => not_accepted(&error, waits),
    }
}

impl Doors {
    /// Listeners of which a poll tells when connections wait there.
    ///
    /// # Errors
    ///
    /// What the system says.
    pub fn new(
        poll: &Poll,
        network: Option<TcpListener>,
        local: Option<LocalListener>,
        admin: Option<LocalListener>,
    ) -> io::Result<Doors> {
        let mut doors = Doors {
            network,
            local,
            admin,
            network_waits: false,
            local_waits: false,
            admin_waits: false,
            local_next: false,
        };
        doors.register(poll)?;
        Ok(doors)
    }

    // Has a poll tell when connections wait.
    fn register(&mut self, poll: &Poll) -> io::Result<()> {
        if let Some(listener) = &mut self.network {
            poll.registry()
                .register(listener, NETWORK, Interest::READABLE)?;
        }
        if let Some(local) = &mut self.local {
            poll.registry()
                .register(&mut local.listener, LOCAL, Interest::READABLE)?;
        }
        if let Some(admin) = &mut self.admin {
            poll.registry()
                .register(&mut admin.listener, ADMIN, Interest::READABLE)?;
        }
        Ok(())
    }

    /// Notes that connections wait, and says whether the token is of a listener.
    pub fn note(&mut self, token: Token) -> bool {
        if token == NETWORK {
            self.network_waits = true;
        } else if token == LOCAL {
            self.local_waits = true;
        } else if token == ADMIN {
            self.admin_waits = true;
        } else {
            return false;
        }
        true
    }

    /// Whether connections may wait to be accepted.
    pub fn are_waited_at(&self) -> bool {
        self.network_waits || self.local_waits || self.admin_waits
    }

    // Accepts one of the network, if one waits.
    fn accept_network(&mut self) -> Accepted {
        let Some(listener) = &self.network else {
            self.network_waits = false;
            return Accepted::Nobody;
        };
        match listener.accept() {
            Ok((stream, peer)) => {
                Accepted::Stream(Socket::new(Wire::Network(stream), false), Some(peer))
            }
            Err(error) => not_accepted(&error, &mut self.network_waits),
        }
    }

    // Accepts one of this machine, if one waits.
    fn accept_local(&mut self) -> Accepted {
        accept_at(&self.local, &mut self.local_waits, false)
    }

    // Accepts an administrator, if one waits.
    fn accept_admin(&mut self) -> Accepted {
        accept_at(&self.admin, &mut self.admin_waits, true)
    }

    /// Accepts one connection, if one waits: an administrator first, and then by turns where some wait at both other listeners.
    pub fn accept(&mut self) -> Accepted {
        if self.admin_waits {
            return self.accept_admin();
        }
        self.local_next = !self.local_next;
        if self.local_waits && (self.local_next || !self.network_waits) {
            self.accept_local()
        } else {
            self.accept_network()
        }
    }

    /// The address that is listened on, where one is.
    ///
    /// # Errors
    ///
    /// What the system says.
    pub fn address(&self) -> io::Result<Option<SocketAddr>> {
        match &self.network {
            Some(listener) => Ok(Some(listener.local_addr()?)),
            None => Ok(None),
        }
    }

    /// The path that is listened on, where one is.
    pub fn path(&self) -> Option<&str> {
        match &self.local {
            Some(local) => Some(local.path.as_str()),
            None => None,
        }
    }

    /// The path that is listened on for administrators, where one is.
    pub fn admin_path(&self) -> Option<&str> {
        match &self.admin {
            Some(admin) => Some(admin.path.as_str()),
            None => None,
        }
    }
}
