// Erased by bindings/rust/erase from crates/service_lock/src/server.rt, sha256 cc5a305dfe554188bd230b3eab6e5be4e9bddc63bc3b32b3e1922af2a9a1f85e.
//! The command language over any service, and connections of a listener that workers serve.
//!
//! `serve_one` reads commands, has a service answer them and writes the replies. It has the theorem of `play_on`
//! (`IsPlayed`), for every reader and writer. Over a `Hall`, the entries that it answers are a transcript of the hall's
//! configuration, with the refusals 13 and 12 added. The history gains exactly the accepted events
//! (`service_hall::law_of_serving`). Over a `ServingClerk`, a clerk with its lock, each reply is one of some hall with a lawful
//! history. The clerk keeps what was accepted.
//!
//! `serve_many` accepts a number of connections, numbered from 0 (`Connections::accept`), and has one worker for each
//! clerk serve them, each connection whole. No lock of the hall is held while a client is waited for. A fault of one
//! connection ends that connection alone. Unless an allocation fails, all clerks come back (`clerks`). Each has what it
//! had kept and the accepted events that it answered (`kept`, by `law_of_clerks`). So the lock can be closed with them.
//! If there is no fault, as many were served as were asked for (`all`).
//!
//! A `Gate` is called for each line that was read whole before it is applied, and for each reply that was written whole
//! (`Watched`): a test holds a worker there. `OpenGate` does nothing.
//!
//! `serve` is a whole server by a `Plan`. It makes the hall's lock, listens on 127.0.0.1, and writes its port and how
//! many it served.
//!
//! Only tested: that connections are served at once, that a worker ends, and what sockets carry.
//!
//! From `tests_service/src/server_tests.rt`, in a function over `L: LockName`:
//!
//! ```text
//! let lock = opened::<L>(rt, alloc, opening);
//! let clerks = two_clerks(rt, alloc, &lock);
//! let shared = &lock;
//! ..
//! move || serve_many(rt, alloc, listener, shared, gate, clerks, 2),
//! ..
//! let is_served = are_ok && served == 2 && fault.is_none();
//! match lock.close(Vec::new(alloc), clerks) {
//! ```
//!
//! From `tests_service/src/serving_tests.rt`:
//!
//! ```text
//! let mut service = ServingClerk::new(lock, clerk);
//! let mut reader = Tried::new(input);
//! let mut writer = Tried::new(Vec::new(alloc));
//! let outcome = serve_one(rt, alloc, &mut reader, &mut writer, &mut service);
//! ```
pub mod connections;
pub mod gate;
pub mod server;
pub mod server_fault;
pub mod serving;
pub mod watched;
pub mod workers;
