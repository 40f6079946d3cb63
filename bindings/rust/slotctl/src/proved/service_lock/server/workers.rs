// Erased by bindings/rust/erase from crates/service_lock/src/server/workers.rt, sha256 15c19063ef085acb3ff777146309ff4af24f769ee6a076f527b6b00b2e41d898.
//! Workers, one for each clerk, that serve the connections of a listener.

use crate::kit::alloc::Global;
use crate::kit::io::Read;
use crate::kit::net::{Shutdown, TcpListener, TcpStream};
use crate::kit::sync::{Mutex, Wait};
use crate::kit::thread;
use crate::kit::thread::Threads;
use crate::kit::time::Duration;
use crate::kit::Vec;
use crate::proved::service_lock::lock::HallLock;
use crate::proved::service_lock::parts::{Clerk, LockName};
use crate::proved::service_lock::server::connections::Connections;
use crate::proved::service_lock::server::gate::Gate;
use crate::proved::service_lock::server::server_fault::ServerFault;
use crate::proved::service_lock::server::serving::serve_one;
use crate::proved::service_lock::server::watched::Watched;
use crate::proved::service_lock::serving_clerk::ServingClerk;
use crate::proved::text_lines::sink::Sink;
use crate::proved::text_player::source::Source;
use crate::proved::text_player::tried::Tried;

/// What `serve_many` served.
pub struct Served<L: LockName> {
    /// The connections that were accepted. Each was served, also if it ended by a fault of its own.
    pub _connections: Connections,
    /// Their number.
    pub served: u64,
    /// The clerks, with all that they have kept.
    pub clerks: Vec<Clerk<L>>,
    /// Why not all connections were served, or `None`.
    pub fault: Option<ServerFault>,
}

/// How many milliseconds a client may pause after the last reply before its connection is closed.
const PAUSE: u64 = 100;

/// How many reads are dropped then at most.
const PASSED_READS: u64 = 1_000_000;

// Ends a connection: its client finds the end after the last reply. What it still sends is dropped until it ends or pauses:
// to close at once would lose replies that the client has not read. Only tested (`tests/serve`).
fn end(stream: &TcpStream) {
    let pause = Duration::from_millis(PAUSE);
    if stream.shutdown(Shutdown::Write).is_err() || stream.set_read_timeout(Some(pause)).is_err() {
        return;
    }
    let mut passed = [0u8; 4096];
    for _ in 0..PASSED_READS {
        match (&mut &*stream).read(&mut passed) {
            Ok(0) | Err(_) => return,
            Ok(_) => {}
        }
    }
}

// Serves one connection to its end. A fault of the connection ends it alone.
fn serve_stream<R: Wait, L: LockName, G: Gate<R>>(
    rt: &R,
    alloc: Global,
    stream: &TcpStream,
    service: &mut ServingClerk<'_, L>,
    gate: &G,
    connection: u64,
) {
    let mut reader = Watched::new(rt, gate, connection, Tried::new(stream));
    let mut writer = Watched::new(rt, gate, connection, Tried::new(stream));
    if serve_lines(rt, alloc, &mut reader, &mut writer, service) {
        end(stream);
    }
}

// Serves a reader and a writer of any type, since a proof over those of a stream is long. Returns whether there was no fault.
fn serve_lines<R: Wait, L: LockName, I: Source, O: Sink>(
    rt: &R,
    alloc: Global,
    reader: &mut I,
    writer: &mut O,
    service: &mut ServingClerk<'_, L>,
) -> bool {
    serve_one(rt, alloc, reader, writer, service).is_ok()
}

// Serves connections while there are some.
fn work<R: Wait, L: LockName, G: Gate<R>>(
    rt: &R,
    alloc: Global,
    listener: &TcpListener,
    lock: &HallLock<L>,
    gate: &G,
    connections: &Mutex<Connections>,
    clerk: Clerk<L>,
) -> Clerk<L> {
    let mut service = ServingClerk::new(lock, clerk);
    for _ in rt.forever() {
        let next = connections.lock(rt).accept(listener);
        let Some((connection, stream)) = next else {
            break;
        };
        serve_stream(rt, alloc, &stream, &mut service, gate, connection);
    }
    service.into_clerk()
}

/// Accepts `count` connections and serves each, with one worker for each clerk.
///
/// Connections are numbered from 0 in the order in which they are accepted. One worker serves a connection from start
/// to end. A slow or silent client holds one worker, and no lock of the hall. A fault of one connection ends that
/// connection alone. A worker for which no thread can be made runs in the caller's thread.
///
/// All clerks come back with what they kept, unless `fault` is `Memory`. If there is no `fault`, all `count`
/// connections were accepted. `fault` is `Network` if an accept failed or there are no clerks.
pub fn serve_many<L, R, G>(
    rt: &R,
    alloc: Global,
    listener: &TcpListener,
    lock: &HallLock<L>,
    gate: &G,
    clerks: Vec<Clerk<L>>,
    count: u64,
) -> Served<L>
where
    L: LockName + Send + Sync,
    R: Threads + Wait + Sync,
    G: Gate<R> + Sync,
{
    let connections = Mutex::new(Connections::new(count));
    let shared = &connections;
    let back = thread::map_vec(rt, clerks, &|clerk: Clerk<L>| -> Clerk<L> {
        work(rt, alloc, listener, lock, gate, shared, clerk)
    });
    let connections = connections.into_inner();
    let served = connections.accepted();
    let lack = connections.lack(count);
    match back {
        Ok(clerks) => Served {
            _connections: connections,
            served,
            clerks,
            fault: lack,
        },
        Err(_) => Served {
            _connections: connections,
            served,
            clerks: Vec::new(alloc),
            fault: Some(ServerFault::Memory),
        },
    }
}
