// Erased by bindings/rust/erase from crates/service_lock/src/server/connections.rt, sha256 219dc105e5516a46570cf7ef296e4e0725ab28b7a626f01a4bb52865b6a23d50.
//! The connections of a listener, in the order in which they are accepted.

use crate::kit::net::OpenListener;
use crate::proved::service_lock::server::server_fault::ServerFault;

/// The connections that were accepted, of a fixed number. Only a listener adds to them.
pub struct Connections {
    accepted: u64,
    count: u64,
    fault: Option<ServerFault>,
}

impl Connections {
    /// Makes the state before any of `count` connections.
    pub(crate) fn new(count: u64) -> Connections {
        Connections {
            accepted: 0,
            count,
            fault: None,
        }
    }

    /// Returns the number of connections that were accepted.
    pub fn accepted(&self) -> u64 {
        self.accepted
    }

    /// Returns why fewer than `count` were accepted: an accept failed, or there was no clerk. Returns `None` if all
    /// were accepted.
    pub(crate) fn lack(&self, count: u64) -> Option<ServerFault> {
        if self.accepted == count {
            None
        } else {
            Some(self.fault.unwrap_or(ServerFault::Network))
        }
    }

    /// Accepts the next connection, and returns it with its number, from 0.
    ///
    /// Returns `None` if all were accepted, or if an accept has failed.
    pub(crate) fn accept<N: OpenListener>(&mut self, listener: &N) -> Option<(u64, N::Stream)> {
        if self.accepted >= self.count || self.fault.is_some() {
            return None;
        }
        match listener.accept() {
            Ok((stream, _)) => {
                let connection = self.accepted;
                self.accepted += 1;
                Some((connection, stream))
            }
            Err(_) => {
                self.fault = Some(ServerFault::Network);
                None
            }
        }
    }
}
