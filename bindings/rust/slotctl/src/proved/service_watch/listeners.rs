// Erased by bindings/rust/erase from crates/service_watch/src/listeners.rt, sha256 5952b66528961fd01cf98c9c7f28ffefd462c6a9a0ea0ef2058018d871104ce8.
//! What a server listens on: a port of the network, a socket of the file system, and a port for whoever watches it.
//!
//! Nothing is promised of what the system does: that is shown by running it.
//!
//! From `service_host/src/start.rt`:
//!
//! ```text
//! let Listening { listeners, files } = listen(rt, alloc, plan.listen)?;
//! ```
pub mod fault;
pub mod listening;
pub mod socket_file;
