// Erased by bindings/rust/erase from crates/service_lock/src/server/gate.rt, sha256 eae712cdbd6357feb6ec5301654c7ea2c9f7774b51208d677fc97986ecf36612.
//! What is called for lines and replies.

/// What a worker calls as it serves a connection, so that a test may hold it.
pub trait Gate<R>: Sized {
    /// Called when a line of a connection is read whole, before it is applied. Only tested: that it is called
    /// (`server_tests`).
    fn read(&self, rt: &R, connection: u64);

    /// Called when a reply to a connection was written whole. Only tested: that it is called (`server_tests`).
    fn answered(&self, rt: &R, connection: u64);
}

/// A gate that does nothing.
#[derive(Clone, Copy, Debug)]
pub struct OpenGate;

impl<R> Gate<R> for OpenGate {
    fn read(&self, _rt: &R, _connection: u64) {}

    fn answered(&self, _rt: &R, _connection: u64) {}
}
