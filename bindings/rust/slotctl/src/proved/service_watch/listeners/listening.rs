// Erased by bindings/rust/erase from crates/service_watch/src/listeners/listening.rt, sha256 329842c1ce482b38ad2722eea26e55a567a26ca46420ad7fa64844dbb3853974.
//! All that a server listens on.

use crate::kit::alloc::Global;
use crate::kit::io;
use crate::kit::mio::net::TcpListener;
use crate::kit::net::{Net, SocketAddr};
use crate::kit::rt::Files;
use crate::proved::service_watch::listeners::fault::ListenFault;
use crate::proved::service_watch::listeners::socket_file::{
    listen_at, LocalListener, SocketFile, SocketFiles, SocketPlan,
};

/// What is to be listened on. With port 0 any is taken that is free.
#[derive(Clone, Copy, Debug)]
pub struct ListenPlan<'a> {
    /// The address and the port for clients.
    pub network: Option<SocketAddr>,
    /// The socket of the file system for clients.
    pub local: Option<SocketPlan<'a>>,
    /// The socket of the file system for administrators.
    pub admin: Option<SocketPlan<'a>>,
    /// The address and the port for whoever watches.
    pub metrics: Option<SocketAddr>,
}

/// Listeners, none of which blocks.
pub struct Listeners {
    /// For clients of the network.
    pub network: Option<TcpListener>,
    /// For clients of this machine.
    pub local: Option<LocalListener>,
    /// For administrators.
    pub admin: Option<LocalListener>,
    /// For whoever watches.
    pub metrics: Option<TcpListener>,
}

/// What is listened on, and the files of the sockets, which are to be removed at the end.
pub struct Listening {
    /// The listeners.
    pub listeners: Listeners,
    /// The files of the sockets.
    pub files: SocketFiles,
}

// Listens on a port, where one is wanted.
fn listen_on<R: Net>(rt: &R, address: Option<SocketAddr>) -> io::Result<Option<TcpListener>> {
    match address {
        Some(address) => Ok(Some(TcpListener::bind(rt, address)?)),
        None => Ok(None),
    }
}

// Listens on a socket of the file system, where one is wanted.
fn listen_locally<R: Net + Files>(
    rt: &R,
    alloc: Global,
    plan: Option<SocketPlan<'_>>,
) -> Result<(Option<LocalListener>, Option<SocketFile>), ListenFault> {
    match plan {
        Some(plan) => {
            let (listener, file) = listen_at(rt, alloc, plan)?;
            Ok((Some(listener), Some(file)))
        }
        None => Ok((None, None)),
    }
}

/// Listens on all that is wanted: first on the ports, so that nothing is made in the file system where one is taken.
///
/// # Errors
///
/// `Network` where the system refuses a port, and those of `listen_at` for a socket.
pub fn listen<R: Net + Files>(
    rt: &R,
    alloc: Global,
    plan: ListenPlan<'_>,
) -> Result<Listening, ListenFault> {
    let network = listen_on(rt, plan.network)?;
    let metrics = listen_on(rt, plan.metrics)?;
    let (local, local_file) = listen_locally(rt, alloc, plan.local)?;
    let (admin, admin_file) = listen_locally(rt, alloc, plan.admin)?;
    Ok(Listening {
        listeners: Listeners {
            network,
            local,
            admin,
            metrics,
        },
        files: SocketFiles {
            local: local_file,
            admin: admin_file,
        },
    })
}
