// Erased by bindings/rust/erase from crates/service_lock/src/server/server.rt, sha256 6040020cd8bc2ad15fd75103ab6d53bf25a2f3822ef400fb071dfcb6beea3ef0.
//! A whole server: a listener, a lock over one hall, and a worker for each of its clerks.

use crate::kit::alloc::{AllocError, Global};
use crate::kit::format;
use crate::kit::io;
use crate::kit::io::{ErrorKind, Write};
use crate::kit::net::{Net, TcpListener, TcpStream};
use crate::kit::sync::ledger::Blank;
use crate::kit::sync::Wait;
use crate::kit::thread::Threads;
use crate::kit::String;
use crate::kit::Vec;
use crate::proved::model_asked::config::Config;
use crate::proved::model_asked::exchange::Exchange;
use crate::proved::service_lock::book::Opened;
use crate::proved::service_lock::lock::HallLock;
use crate::proved::service_lock::parts::{Clerk, LockName};
use crate::proved::service_lock::server::gate::OpenGate;
use crate::proved::service_lock::server::server_fault::{ServeFault, ServerFault};
use crate::proved::service_lock::server::workers::{serve_many, Served};

/// What a server serves, over one hall.
#[derive(Clone, Copy)]
pub struct Plan {
    /// The configuration of the hall, whose world gives names.
    pub config: Config,
    /// The port to listen on, or 0 for any that is free.
    pub port: u16,
    /// The number of workers, each of which serves one connection at a time.
    pub workers: u64,
    /// The number of connections to serve.
    pub count: u64,
}

// A line of a word and a number.
fn line_of(alloc: Global, word: &str, number: u64) -> Result<String, AllocError> {
    format!(in alloc; "{word} {number}\n")
}

// Writes such a line, and flushes it. Only tested (`tests/serve`).
fn tell<W: Write>(
    alloc: Global,
    word: &str,
    number: u64,
    output: &mut W,
) -> Result<(), ServeFault> {
    let line = line_of(alloc, word, number)?;
    if output.write_all(line.as_bytes()).is_err() || output.flush().is_err() {
        return Err(ServeFault::Write);
    }
    Ok(())
}

// The fault for an error of sockets. Only tested (`tests/serve`).
fn fault_of(error: &io::Error) -> ServeFault {
    if error.kind() == ErrorKind::OutOfMemory {
        ServeFault::Server(ServerFault::Memory)
    } else {
        ServeFault::Server(ServerFault::Network)
    }
}

// A listener, and the port that it got. Only tested (`tests/serve`).
fn listening<R: Net<Listener = TcpListener, Stream = TcpStream>>(
    rt: &R,
    port: u16,
) -> Result<(TcpListener, u16), ServeFault> {
    let listener = match TcpListener::bind(rt, ("127.0.0.1", port)) {
        Ok(listener) => listener,
        Err(error) => return Err(fault_of(&error)),
    };
    match listener.local_addr() {
        Ok(address) => Ok((listener, address.port())),
        Err(error) => Err(fault_of(&error)),
    }
}

// `count` clerks of a lock. Only tested (`tests/serve`): that there are so many.
fn clerks_of<L: LockName, R: Wait>(
    rt: &R,
    alloc: Global,
    lock: &HallLock<L>,
    count: u64,
) -> Option<Vec<Clerk<L>>> {
    let mut clerks = Vec::new(alloc);
    for _ in 0..count {
        clerks.push(lock.clerk(rt, alloc).ok()?).ok()?;
    }
    Some(clerks)
}

// Serves all connections of a plan by these clerks, after it has written the port. Only tested (`tests/serve`): what it writes.
fn serve_all<L: LockName + Send + Sync, R, W: Write>(
    rt: &R,
    alloc: Global,
    plan: Plan,
    output: &mut W,
    lock: &HallLock<L>,
    clerks: Vec<Clerk<L>>,
) -> Result<Served<L>, ServeFault>
where
    R: Net<Listener = TcpListener, Stream = TcpStream> + Threads + Wait + Sync,
{
    let (listener, port) = listening(rt, plan.port)?;
    match tell(alloc, "listening", u64::from(port), output) {
        Ok(()) => Ok(serve_many(
            rt, alloc, &listener, lock, &OpenGate, clerks, plan.count,
        )),
        Err(fault) => Err(fault),
    }
}

// Closes the hall against all that its clerks kept, and writes how many connections were served. Only tested (`tests/serve`).
fn end<L: LockName, W: Write>(
    alloc: Global,
    lock: HallLock<L>,
    served: Served<L>,
    output: &mut W,
) -> Result<(), ServeFault> {
    if let Some(fault) = served.fault {
        return Err(ServeFault::Server(fault));
    }
    if lock.close(Vec::new(alloc), served.clerks).is_err() {
        return Err(ServeFault::Server(ServerFault::History));
    }
    tell(alloc, "served", served.served, output)
}

/// Serves `plan.count` connections to 127.0.0.1 over one hall, by threads.
///
/// It writes a line `listening PORT` before the first connection. After the last it closes the hall against all that
/// its clerks kept, and writes a line `served COUNT`. Only tested: what it writes and returns (`tests/serve`).
///
/// # Errors
///
/// - `Server(Memory)`: an allocation failed, or more than 1,000,000 workers are asked for.
/// - `Server(Network)`: to listen or to accept failed, or there are no workers.
/// - `Write`: a line could not be written.
/// - `Server(History)`: the history at the end is not what the clerks kept.
pub fn serve<L: LockName + Send + Sync, R, W: Write>(
    rt: &R,
    alloc: Global,
    plan: Plan,
    output: &mut W,
    blank: Blank,
    history: Opened<Exchange>,
) -> Result<(), ServeFault>
where
    R: Net<Listener = TcpListener, Stream = TcpStream> + Threads + Wait + Sync,
{
    let Ok(lock) = HallLock::<L>::new(alloc, plan.config, blank, history) else {
        return Err(ServeFault::Server(ServerFault::Memory));
    };
    let served = match clerks_of(rt, alloc, &lock, plan.workers) {
        Some(clerks) => serve_all(rt, alloc, plan, output, &lock, clerks),
        None => Err(ServeFault::Server(ServerFault::Memory)),
    };
    match served {
        Ok(served) => end(alloc, lock, served, output),
        Err(fault) => Err(fault),
    }
}
